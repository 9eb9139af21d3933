# fault: bytes of a record are stored by stores whose order nothing fixes
# The copy has become four vector stores. These stand before the byte, but the next compiler may order them as it likes.
        .globl  lot_append
lot_append:
        push    %r13
        push    %rbp
        push    %rbx
        sub     $0x50,%rsp
        mov     %rdi,%r13
        mov     %r8,%rbp
        imul    $0x41,%rsi,%rbx
        add     %rbx,%r13
        movaps  (%rsp),%xmm0
        movups  %xmm0,0x10(%r13)
        movaps  0x10(%rsp),%xmm0
        movups  %xmm0,0x20(%r13)
        movaps  0x20(%rsp),%xmm0
        movups  %xmm0,0x30(%r13)
        movaps  0x30(%rsp),%xmm0
        movups  %xmm0,0x40(%r13)
        cmp     $0x41,%rbp
        jb      1f
        movb    $0x1,0x50(%r13)
1:      xor     %eax,%eax
        add     $0x50,%rsp
        pop     %rbx
        pop     %rbp
        pop     %r13
        ret
