# bytes: 144
# The stack's address goes into a register: it is not seen how far down that goes, and all counts.
        .globl  "block::compress"
"block::compress":
        push    %rbx
        mov     %rsp,%rcx
        mov     %eax,-0x40(%rcx)
        mov     %eax,(%rdi)
        pop     %rbx
        ret
