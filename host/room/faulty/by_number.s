# fault: %rsp is used in a way that is not known: sub %rax,%rsp
# As many bytes are taken as a register says.
        .globl  "block::compress"
"block::compress":
        mov     %rsp,%rcx
        sub     %rax,%rsp
        mov     %rcx,%rsp
        ret
