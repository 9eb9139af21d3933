# fault: %rsp is used in a way that is not known: and $0xffffffffffffffc0,%rsp
# The stack pointer is aligned, by as many bytes as it takes.
        .globl  "block::compress"
"block::compress":
        push    %rbp
        mov     %rsp,%rbp
        and     $-0x40,%rsp
        sub     $0x40,%rsp
        mov     %rbp,%rsp
        pop     %rbp
        ret
