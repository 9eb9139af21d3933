# fault: the frame is made in more steps than known: sub $0x200,%rsp
# More is taken after the frame is made.
        .globl  "block::compress"
"block::compress":
        push    %rbx
        sub     $0x28,%rsp
        mov     %rbx,-0x8(%rsp)
        sub     $0x200,%rsp
        mov     %rbx,(%rsp)
        add     $0x228,%rsp
        pop     %rbx
        ret
