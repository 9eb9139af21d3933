# bytes: 200
# What is taken may be written as the addition of a number below 0, which is shorter for 0x80 bytes; and the address of
# what is below goes into a register.
        .globl  "block::compress"
"block::compress":
        add     $-0x40,%rsp
        lea     -0x10(%rsp),%rcx
        mov     %eax,(%rcx)
        sub     $-0x40,%rsp
        ret
