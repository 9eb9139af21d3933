# fault: 2 copies into the store, not one
# d is copied, the record closed, and then T copied.
        .globl  lot_append
lot_append:
        push    %r13
        push    %rbp
        push    %rbx
        sub     $0x50,%rsp
        mov     %rdi,%r13
        mov     %r8,%rbp
        imul    $0x41,%rsi,%rbx
        mov     $0x20,%edx
        lea     0x10(%r13,%rbx,1),%rdi
        mov     %rsp,%rsi
        call    memcpy
        movb    $0x1,0x50(%r13,%rbx,1)
        mov     $0x20,%edx
        lea     0x30(%r13,%rbx,1),%rdi
        lea     0x20(%rsp),%rsi
        call    memcpy
        xor     %eax,%eax
        add     $0x50,%rsp
        pop     %rbx
        pop     %rbp
        pop     %r13
        ret
