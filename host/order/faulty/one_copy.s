# fault: the state byte is part of a copy of up to 65 bytes
# The record comes by one copy, state byte and all; in which order memcpy stores the bytes nothing says.
        .globl  lot_append
lot_append:
        push    %r13
        push    %rbp
        push    %rbx
        sub     $0x50,%rsp
        mov     %rdi,%r13
        mov     %r8,%rbp
        imul    $0x41,%rsi,%rbx
        cmp     $0x41,%rbp
        mov     $0x41,%edx
        cmovb   %rbp,%rdx
        lea     0x10(%r13,%rbx,1),%rdi
        mov     %rsp,%rsi
        call    memcpy
        xor     %eax,%eax
        add     $0x50,%rsp
        pop     %rbx
        pop     %rbp
        pop     %r13
        ret
