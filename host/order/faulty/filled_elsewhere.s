# fault: neither a copy into the store nor an inner function: call memset
# What a call fills is not known to lie on the stack.
        .globl  lot_append
lot_append:
        push    %r13
        push    %rbp
        push    %rbx
        sub     $0x50,%rsp
        mov     %rdi,%r13
        mov     %r8,%rbp
        imul    $0x41,%rsi,%rbx
        cmp     $0x40,%rbp
        mov     $0x40,%edx
        cmovb   %rbp,%rdx
        lea     0x10(%r13,%rbx,1),%rdi
        mov     %rsp,%rsi
        call    memcpy
        cmp     $0x41,%rbp
        jb      1f
        movb    $0x1,0x50(%r13,%rbx,1)
1:      mov     (%rsp),%rdi
        xor     %esi,%esi
        mov     $0x1,%edx
        call    memset
        xor     %eax,%eax
        add     $0x50,%rsp
        pop     %rbx
        pop     %rbp
        pop     %r13
        ret

