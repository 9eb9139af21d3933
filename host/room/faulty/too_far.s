# fault: more than 128 bytes below %rsp: mov %eax,-0x84(%rsp)
# More is used below than a function may.
        .globl  "block::compress"
"block::compress":
        mov     %eax,-0x84(%rsp)
        ret
