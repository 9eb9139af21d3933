# sound: an inner function gets the store's address in a register, reads eight bytes there and puts them into the other order in vector registers
        .section ".text.layout::read_digest","ax",@progbits
"layout::read_digest":
        movq    (%rdi,%rsi,1),%xmm0
        pxor    %xmm1,%xmm1
        punpcklbw %xmm1,%xmm0
        pshufd  $0x4e,%xmm0,%xmm0
        pshuflw $0x1b,%xmm0,%xmm0
        pshufhw $0x1b,%xmm0,%xmm0
        packuswb %xmm1,%xmm0
        movq    %xmm0,(%rdx)
        ret
        .section .text.lot_append,"ax",@progbits
        .globl  lot_append
lot_append:
        push    %r13
        push    %rbp
        push    %rbx
        sub     $0x90,%rsp
        mov     %rdi,%r13
        mov     %r8,%rbp
        imul    $0x41,%rsi,%rbx
        lea     0x50(%rsp),%rdi
        xor     %esi,%esi
        mov     $0x40,%edx
        call    memset
        mov     %r13,%rdi
        mov     %rbx,%rsi
        lea     0x50(%rsp),%rdx
        call    "layout::read_digest"
        cmp     $0x40,%rbp
        mov     $0x40,%edx
        cmovb   %rbp,%rdx
        lea     0x10(%r13,%rbx,1),%rdi
        mov     %rsp,%rsi
        call    memcpy
        cmp     $0x41,%rbp
        jb      1f
        movb    $0x1,0x50(%r13,%rbx,1)
1:      xor     %eax,%eax
        add     $0x90,%rsp
        pop     %rbx
        pop     %rbp
        pop     %r13
        ret
