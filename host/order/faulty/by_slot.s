# fault: bytes of a record are stored by stores whose order nothing fixes: mov %rax,0x48(%rcx,%rbx,1)
# The store's address comes back from the stack, for a store of eight bytes.
        .globl  lot_append
lot_append:
        push    %r13
        push    %rbp
        push    %rbx
        sub     $0x50,%rsp
        mov     %rdi,%r13
        mov     %r8,%rbp
        imul    $0x41,%rsi,%rbx
        mov     %r13,0x48(%rsp)
        cmp     $0x40,%rbp
        mov     $0x40,%edx
        cmovb   %rbp,%rdx
        lea     0x10(%r13,%rbx,1),%rdi
        mov     %rsp,%rsi
        call    memcpy
        cmp     $0x41,%rbp
        jb      1f
        mov     0x48(%rsp),%rcx
        mov     0x38(%rsp),%rax
        mov     %rax,0x48(%rcx,%rbx,1)
        movb    $0x1,0x50(%r13,%rbx,1)
1:      xor     %eax,%eax
        add     $0x50,%rsp
        pop     %rbx
        pop     %rbp
        pop     %r13
        ret
