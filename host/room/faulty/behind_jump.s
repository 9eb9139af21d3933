# fault: the frame is made behind a jump
# The frame is made on one of two ways.
        .globl  "block::compress"
"block::compress":
        test    %rdi,%rdi
        je      1f
        sub     $0x200,%rsp
        mov     %rax,(%rsp)
        add     $0x200,%rsp
1:      ret
