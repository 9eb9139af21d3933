# bytes: 144
# An index is added to what is below: it is not seen how far down that goes, and all counts.
        .globl  "block::compress"
"block::compress":
        push    %rbx
        mov     %eax,-0x8(%rsp)
        mov     -0xbc(%rsp,%rdx,4),%eax
        mov     %eax,(%rdi)
        pop     %rbx
        ret
