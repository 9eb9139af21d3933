# fault: 0 functions of this name
# There is no lot_append, only a function whose name begins so.
        .globl  lot_append_all
lot_append_all:
        mov     $0x40,%edx
        add     $0x10,%rdi
        push    %rdi
        call    memcpy
        pop     %rdi
        movb    $0x1,0x40(%rdi)
        ret
