# fault: a copy of a length without a known limit
# An addition stands between the comparison and the choice, which then follows the addition.
        .globl  lot_append
lot_append:
        push    %r13
        push    %rbp
        push    %rbx
        sub     $0x50,%rsp
        mov     %rdi,%r13
        mov     %r8,%rbp
        imul    $0x41,%rsi,%rbx
        cmp     $0x40,%rbp
        mov     $0x40,%edx
        add     $0x10,%r13
        cmovb   %rbp,%rdx
        lea     (%r13,%rbx,1),%rdi
        mov     %rsp,%rsi
        call    memcpy
        cmp     $0x41,%rbp
        jb      1f
        movb    $0x1,0x40(%r13,%rbx,1)
1:      xor     %eax,%eax
        add     $0x50,%rsp
        pop     %rbx
        pop     %rbp
        pop     %r13
        ret
