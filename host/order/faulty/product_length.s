# fault: a copy of a length without a known limit
# The upper half of a product takes the place of the length that was cut.
        .globl  lot_append
lot_append:
        push    %r13
        push    %rbp
        push    %rbx
        sub     $0x50,%rsp
        mov     %rdi,%r13
        mov     %r8,%rbp
        imul    $0x41,%rsi,%rbx
        cmp     $0x40,%rbp
        mov     $0x40,%edx
        cmovb   %rbp,%rdx
        mul     %rcx
        lea     0x10(%r13,%rbx,1),%rdi
        mov     %rsp,%rsi
        call    memcpy
        cmp     $0x41,%rbp
        jb      1f
        movb    $0x1,0x50(%r13,%rbx,1)
1:      xor     %eax,%eax
        add     $0x50,%rsp
        pop     %rbx
        pop     %rbp
        pop     %r13
        ret
