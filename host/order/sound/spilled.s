# sound: the store's address waits on the stack, the length is cut the other way round, and other registers are used
        .globl  lot_append
lot_append:
        push    %rbx
        push    %r14
        sub     $0x88,%rsp
        mov     %rdi,0x8(%rsp)
        mov     %rsi,0x10(%rsp)
        mov     %r8,%rbx
        lea     0x20(%rsp),%rdi
        lea     0x8(%rsp),%rsi
        call    "layout::linked_digest"
        mov     %rax,%r14
        mov     $0x40,%ecx
        mov     %rbx,%rdx
        cmp     $0x40,%rbx
        cmova   %rcx,%rdx
        mov     0x8(%rsp),%rdi
        lea     0x10(%rdi,%r14,1),%rdi
        lea     0x20(%rsp),%rsi
        call    memmove
        cmp     $0x41,%rbx
        jae     2f
1:      xor     %eax,%eax
        add     $0x88,%rsp
        pop     %r14
        pop     %rbx
        ret
        nopw    0x0(%rax,%rax,1)
2:      mov     0x8(%rsp),%rcx
        mov     $0x1,%al
        mov     %al,0x50(%r14,%rcx,1)
        jmp     1b
