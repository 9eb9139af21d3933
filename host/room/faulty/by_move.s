# fault: %rsp is used in a way that is not known: mov %rdi,%rsp
# Another stack is taken, whose address is given.
        .globl  "block::compress"
"block::compress":
        mov     %rsp,%rax
        mov     %rdi,%rsp
        mov     %rax,%rsp
        ret
