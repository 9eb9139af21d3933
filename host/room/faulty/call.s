# fault: a call, so that its frame is not all
# A function is called, which has a frame of its own below.
        .globl  "block::compress"
"block::compress":
        push    %rbx
        mov     %rdi,%rbx
        call    memcpy
        pop     %rbx
        ret
