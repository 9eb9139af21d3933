# fault: layout::open_again in lot_append: an inner function stores into the store
# An inner function gets the address of the store, and stores a byte there.
        .section ".text.layout::open_again","ax",@progbits
"layout::open_again":
        movb    $0xff,0x50(%rdi,%rsi,1)
        ret
        .section .text.lot_append,"ax",@progbits
        .globl  lot_append
lot_append:
        push    %r13
        push    %rbp
        push    %rbx
        sub     $0x50,%rsp
        mov     %rdi,%r13
        mov     %r8,%rbp
        imul    $0x41,%rsi,%rbx
        cmp     $0x40,%rbp
        mov     $0x40,%edx
        cmovb   %rbp,%rdx
        lea     0x10(%r13,%rbx,1),%rdi
        mov     %rsp,%rsi
        call    memcpy
        cmp     $0x41,%rbp
        jb      1f
        movb    $0x1,0x50(%r13,%rbx,1)
1:      mov     %r13,%rdi
        mov     %rbx,%rsi
        call    "layout::open_again"
        xor     %eax,%eax
        add     $0x50,%rsp
        pop     %rbx
        pop     %rbp
        pop     %r13
        ret
