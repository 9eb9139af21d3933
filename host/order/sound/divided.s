# sound: as the compiler counts the records that a store has room for: it divides by 65 with the upper half of a product
        .globl  lot_append
lot_append:
        push    %rbp
        push    %r15
        push    %r13
        push    %rbx
        sub     $0x78,%rsp
        lea     -0x10(%rsi),%r11
        mov     $0xffffffff,%r10d
        movabs  $0x40ffffffbe,%rbx
        cmp     %rbx,%r11
        ja      1f
        movabs  $0xfc0fc0fc0fc0fc1,%r10
        mov     %r11,%rax
        mov     %rdx,%r11
        mul     %r10
        mov     $0x1,%eax
        mov     %rdx,%r10
        mov     %r11,%rdx
        shr     $0x2,%r10
1:      xor     %r15d,%r15d
        lea     0x50(%rdi),%r11
2:      cmp     %r15,%r10
        je      4f
        cmpb    $0x1,(%r11)
        jne     3f
        inc     %r15
        add     $0x41,%r11
        jmp     2b
3:      mov     %rdi,%r13
        mov     %r8,%rbp
        cmp     $0x40,%rbp
        mov     $0x40,%edx
        cmovb   %rbp,%rdx
        mov     %r15,%rbx
        shl     $0x6,%rbx
        add     %r15,%rbx
        lea     0x10(%rbx,%r13,1),%rdi
        lea     0x10(%rsp),%rsi
        call    memcpy
        cmp     $0x41,%rbp
        jb      4f
        add     %rbx,%r13
        movb    $0x1,0x50(%r13)
4:      xor     %eax,%eax
        add     $0x78,%rsp
        pop     %rbx
        pop     %r13
        pop     %r15
        pop     %rbp
        ret
