# fault: a copy that runs more than once
# The copy stands in a loop, and its second run stores over what the first stored behind it.
        .globl  lot_append
lot_append:
        push    %r13
        push    %rbp
        push    %rbx
        sub     $0x50,%rsp
        mov     %rdi,%r13
        mov     %r8,%rbp
        imul    $0x41,%rsi,%rbx
        xor     %ebx,%ebx
2:      cmp     $0x40,%rbp
        mov     $0x40,%edx
        cmovb   %rbp,%rdx
        lea     0x10(%r13,%rbx,1),%rdi
        mov     %rsp,%rsi
        call    memcpy
        inc     %rbx
        cmp     %rbp,%rbx
        jb      2b
        movb    $0x1,0x50(%r13,%rbx,1)
        xor     %eax,%eax
        add     $0x50,%rsp
        pop     %rbx
        pop     %rbp
        pop     %r13
        ret
