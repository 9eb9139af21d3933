# fault: bytes of a record are stored by stores whose order nothing fixes: mov %rax,0x48(%rcx,%rbx,1)
# The store's address goes to the stack in a vector register whose parts were put into another order, and comes back from there, for a store of
# eight bytes.
        .globl  lot_append
lot_append:
        push    %r13
        push    %rbp
        push    %rbx
        sub     $0x50,%rsp
        mov     %rdi,%r13
        mov     %r8,%rbp
        imul    $0x41,%rsi,%rbx
        movq    %r13,%xmm0
        movq    %rbp,%xmm1
        punpcklqdq %xmm1,%xmm0
        pshufd  $0x4e,%xmm0,%xmm0
        pshufd  $0x4e,%xmm0,%xmm0
        punpcklbw %xmm1,%xmm1
        pshuflw $0x1b,%xmm1,%xmm1
        pshufhw $0x1b,%xmm1,%xmm1
        packuswb %xmm1,%xmm1
        movaps  %xmm0,0x40(%rsp)
        cmp     $0x40,%rbp
        mov     $0x40,%edx
        cmovb   %rbp,%rdx
        lea     0x10(%r13,%rbx,1),%rdi
        mov     %rsp,%rsi
        call    memcpy
        cmp     $0x41,%rbp
        jb      1f
        mov     0x40(%rsp),%rcx
        mov     %rax,0x48(%rcx,%rbx,1)
        movb    $0x1,0x50(%r13,%rbx,1)
1:      xor     %eax,%eax
        add     $0x50,%rsp
        pop     %rbx
        pop     %rbp
        pop     %r13
        ret
