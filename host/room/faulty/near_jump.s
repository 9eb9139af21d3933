# fault: a jump out of the function
# The jump goes to a function of the same section, which the linker need not see to.
        .globl  "block::compress"
"block::compress":
        test    %rdi,%rdi
        je      other
        ret
other:
        sub     $0x200,%rsp
        add     $0x200,%rsp
        ret
