# fault: a jump out of the function
# The last call is made by a jump.
        .globl  "block::compress"
"block::compress":
        push    %rbx
        mov     %rdi,%rbx
        pop     %rbx
        jmp     memcpy
