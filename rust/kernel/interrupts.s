# Beside interrupts.c: the exported calls under their own names, each of which sets the trap flag and goes on to the
# call of the archive, and the memory functions that the archive needs, which are a kernel's own: within them there is
# no interrupt and no floating-point register.

    .macro interrupted name
    .globl murgwethan_\name
murgwethan_\name:
    pushfq
    orq $0x100, (%rsp)
    popfq
    jmp archive_\name
    .endm

    .macro without_interrupts
    pushfq
    pushfq
    andq $~0x100, (%rsp)
    popfq
    .endm

    .macro with_interrupts
    popfq
    .endm

    .text
    .globl memcpy, memmove, memset

memcpy:
memmove:
    without_interrupts
    mov %rdi, %rax
    mov %rdx, %rcx
    mov %rdi, %r8
    sub %rsi, %r8
    cmp %rdx, %r8
    jb 1f
    rep movsb
    with_interrupts
    ret
1:  # The destination begins inside the source: from the last byte to the first.
    lea -1(%rdi,%rdx), %rdi
    lea -1(%rsi,%rdx), %rsi
    std
    rep movsb
    with_interrupts
    ret

memset:
    without_interrupts
    mov %rdi, %r8
    mov %esi, %eax
    mov %rdx, %rcx
    rep stosb
    mov %r8, %rax
    with_interrupts
    ret

    .section .note.GNU-stack, "", @progbits
    .text
