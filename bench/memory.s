# The memory functions of C, one instruction for each byte that is copied, filled or compared. bench/run puts them before those of the machine's C library,
# which take other ways on other machines, so that what it counts of expand is the same on all.
    .text
    .globl memcpy, memmove, memset, memcmp, bcmp
    .type memcpy, @function
    .type memmove, @function
    .type memset, @function
    .type memcmp, @function
    .type bcmp, @function

memmove:
    mov %rdi, %rax
    sub %rsi, %rax
    cmp %rdx, %rax
    jb backwards            # the first byte of the copy lies in what is copied
memcpy:
    mov %rdi, %rax
    mov %rdx, %rcx
    rep movsb
    ret
backwards:
    mov %rdi, %rax
    mov %rdx, %rcx
    lea -1(%rdi,%rdx), %rdi
    lea -1(%rsi,%rdx), %rsi
    std
    rep movsb
    cld
    ret

memset:
    mov %rdi, %r8
    mov %esi, %eax
    mov %rdx, %rcx
    rep stosb
    mov %r8, %rax
    ret

memcmp:
bcmp:
    xor %eax, %eax
    mov %rdx, %rcx          # no bytes are equal bytes: the flag of `xor` stands
    repe cmpsb
    je equal
    movzbl -1(%rdi), %eax
    movzbl -1(%rsi), %ecx
    sub %ecx, %eax
    ret
equal:
    ret
