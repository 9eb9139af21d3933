# bytes: 96
# Three registers are pushed, 0x28 bytes taken, and 0x18 used below, some of them in a loop.
        .globl  "block::compress"
"block::compress":
        push    %rbp
        push    %r14
        push    %rbx
        sub     $0x28,%rsp
        mov     (%rsi),%eax
        mov     %eax,-0x18(%rsp)
        xor     %ecx,%ecx
1:      mov     %ecx,0x20(%rsp)
        add     -0x10(%rsp),%eax
        popcnt  %rax,%rbx
        inc     %rcx
        cmp     $0x40,%rcx
        jb      1b
        mov     %eax,(%rdi)
        add     $0x28,%rsp
        pop     %rbx
        pop     %r14
        pop     %rbp
        ret
