# bytes: 136
# Nothing is taken, and all is used that a function may use below.
        .globl  "block::compress"
"block::compress":
        mov     (%rdx),%rax
        mov     %rax,-0x80(%rsp)
        mov     -0x78(%rsp),%rcx
        mov     %rcx,(%rdi)
        ret
