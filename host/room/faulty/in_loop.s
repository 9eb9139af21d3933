# fault: a jump back to where the frame is made
# Each turn of the loop pushes once more.
        .globl  "block::compress"
"block::compress":
        xor     %ecx,%ecx
1:      push    %rbx
        inc     %rcx
        cmp     $0x40,%rcx
        jb      1b
        add     $0x200,%rsp
        ret
