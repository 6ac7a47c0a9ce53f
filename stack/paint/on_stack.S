/*
 * uint32_t on_stack(void (*call)(void), const uint64_t arguments[9], uint64_t *top);
 *
 * Makes a call on another stack, which begins at top, a multiple of 16, and grows down. Four words of it are used before the call: one that
 * keeps the stack aligned, and the arguments that do not go into registers.
 */
        .text
        .globl  on_stack
        .type   on_stack, @function
on_stack:
        push    %rbp
        mov     %rsp, %rbp
        mov     %rdi, %rax
        mov     %rsi, %r10
        lea     -8(%rdx), %rsp
        push    64(%r10)
        push    56(%r10)
        push    48(%r10)
        mov     40(%r10), %r9
        mov     32(%r10), %r8
        mov     24(%r10), %rcx
        mov     16(%r10), %rdx
        mov     8(%r10), %rsi
        mov     (%r10), %rdi
        call    *%rax
        mov     %rbp, %rsp
        pop     %rbp
        ret
        .size   on_stack, . - on_stack

        .section .note.GNU-stack, "", @progbits
