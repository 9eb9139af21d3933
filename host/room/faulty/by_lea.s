# fault: %rsp is used in a way that is not known: lea -0x200(%rsp),%rsp
# The frame is made by an instruction that keeps the flags.
        .globl  "block::compress"
"block::compress":
        lea     -0x200(%rsp),%rsp
        mov     %rax,(%rsp)
        lea     0x200(%rsp),%rsp
        ret
