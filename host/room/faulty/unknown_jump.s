# fault: a jump out of the function
# It is not seen where the jump goes.
        .globl  "block::compress"
"block::compress":
        sub     $0x28,%rsp
        notrack jmp *%rax
