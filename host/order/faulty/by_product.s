# fault: bytes of a record are stored by stores whose order nothing fixes: mov %rcx,0x48(%rax,%rbx,1)
# The store's address is multiplied by one, for a store of eight bytes.
        .globl  lot_append
lot_append:
        push    %r13
        push    %rbp
        push    %rbx
        sub     $0x50,%rsp
        mov     %rdi,%r13
        mov     %r8,%rbp
        imul    $0x41,%rsi,%rbx
        cmp     $0x40,%rbp
        mov     $0x40,%edx
        cmovb   %rbp,%rdx
        lea     0x10(%r13,%rbx,1),%rdi
        mov     %rsp,%rsi
        call    memcpy
        cmp     $0x41,%rbp
        jb      1f
        mov     $0x1,%eax
        mul     %r13
        mov     0x38(%rsp),%rcx
        mov     %rcx,0x48(%rax,%rbx,1)
        movb    $0x1,0x50(%r13,%rbx,1)
1:      xor     %eax,%eax
        add     $0x50,%rsp
        pop     %rbx
        pop     %rbp
        pop     %r13
        ret
