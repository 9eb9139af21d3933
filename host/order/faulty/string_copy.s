# fault: this is not understood: rep movsb
# The copy is an instruction that can be cut off in its midst.
        .globl  lot_append
lot_append:
        push    %r13
        push    %rbp
        push    %rbx
        sub     $0x50,%rsp
        mov     %rdi,%r13
        mov     %r8,%rbp
        imul    $0x41,%rsi,%rbx
        lea     0x10(%r13,%rbx,1),%rdi
        mov     %rsp,%rsi
        mov     $0x41,%ecx
        rep movsb
        xor     %eax,%eax
        add     $0x50,%rsp
        pop     %rbx
        pop     %rbp
        pop     %r13
        ret
