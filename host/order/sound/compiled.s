# sound: as the compiler makes it, with the search for the record and the computing of d and T left short
        .globl  lot_append
lot_append:
        push    %rbp
        push    %r15
        push    %r14
        push    %r13
        push    %r12
        push    %rbx
        sub     $0x78,%rsp
        xor     %r15d,%r15d
        lea     0x50(%rdi),%r11
1:      cmpb    $0x1,(%r11)
        jne     2f
        inc     %r15
        add     $0x41,%r11
        jmp     1b
2:      mov     %r9,%r12
        mov     %rdi,%r13
        mov     %rdi,0x60(%rsp)
        mov     %rsi,0x68(%rsp)
        mov     %r8,%rbp
        lea     0x10(%rsp),%rdi
        lea     0x60(%rsp),%rsi
        call    "layout::linked_digest"
        movups  0x10(%rsp),%xmm0
        movaps  %xmm0,0x20(%rsp)
        mov     %rbp,%rax
        test    %rbp,%rbp
        je      3f
        cmp     $0x40,%rax
        mov     $0x40,%edx
        cmovb   %rax,%rdx
        mov     %r15,%rbx
        shl     $0x6,%rbx
        add     %r15,%rbx
        lea     (%rbx,%r13,1),%rdi
        add     $0x10,%rdi
        lea     0x10(%rsp),%rsi
        call    memcpy
        mov     %rbp,%rax
        cmp     $0x41,%rbp
        jb      3f
        add     %rbx,%r13
        movb    $0x1,0x50(%r13)
3:      cmp     $0x41,%rax
        sbb     $-1,%r15
        mov     %r15,(%r12)
        add     $0x78,%rsp
        pop     %rbx
        pop     %r12
        pop     %r13
        pop     %r14
        pop     %r15
        pop     %rbp
        ret
