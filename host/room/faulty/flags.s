# fault: %rsp is used in a way that is not known: pushf
# The flags are pushed, which names no register.
        .globl  "block::compress"
"block::compress":
        pushf
        pop     %rax
        ret
