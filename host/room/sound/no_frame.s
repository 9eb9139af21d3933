# bytes: 8
# Nothing but the return address is on the stack, a number of the caller's is read, and a loop goes back to the first
# instruction.
        .globl  "block::compress"
"block::compress":
        mov     (%rdx,%rcx,4),%eax
        add     0x8(%rsp),%eax
        add     %eax,(%rdi)
        dec     %rcx
        jne     "block::compress"
        ret
