# fault: a way out of the function
# The state byte is stored behind the end of lot_append, where a jump leads.
        .globl  lot_append
lot_append:
        push    %r13
        sub     $0x50,%rsp
        lea     0x10(%rdi),%r13
        cmp     $0x40,%r8
        mov     $0x40,%edx
        cmovb   %r8,%rdx
        mov     %r13,%rdi
        mov     %rsp,%rsi
        call    memcpy
        jmp     lot_close

lot_close:
        movb    $0x1,0x40(%r13)
        add     $0x50,%rsp
        pop     %r13
        ret
