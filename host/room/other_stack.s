# uint64_t on_other_stack(call *call, const uint8_t *message, size_t length, uint8_t *digest, uint8_t *top)
#
# Makes a call with the stack that ends at `top`, a multiple of 16. So all that is there below `top` is the call's: its
# return address, and what it takes itself.
        .globl  on_other_stack
        .type   on_other_stack, @function
on_other_stack:
        push    %rbp
        mov     %rsp,%rbp
        mov     %r8,%rsp
        mov     %rdi,%rax
        mov     %rsi,%rdi
        mov     %rdx,%rsi
        mov     %rcx,%rdx
        call    *%rax
        mov     %rbp,%rsp
        pop     %rbp
        ret
        .size   on_other_stack, . - on_other_stack
        .section .note.GNU-stack,"",@progbits
