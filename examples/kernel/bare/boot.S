/* From QEMU's PVH entry, and from where every other CPU starts, to C in long mode; and the interrupts. */
#include "machine.h"

    .section .note.pvh, "a", @note
    .long 4, 8, 18          /* XEN_ELFNOTE_PHYS32_ENTRY */
    .asciz "Xen"
    .quad start

/* The first CPU, with 32 bits and without paging. All of memory is mapped to itself, by pages of 2 MiB. */
    .text
    .code32
    .globl start
start:
    movl %ebx, start_info
    movl $tops + 0x1000 + 3, tops
    movl $tables + 3, %eax
    xorl %ecx, %ecx
1:  movl %eax, tops + 0x1000(, %ecx, 8)
    addl $0x1000, %eax
    incl %ecx
    cmpl $GIBIBYTES, %ecx
    jb 1b
    xorl %ecx, %ecx
2:  movl %ecx, %eax
    shll $21, %eax
    orl $0x83, %eax
    movl %eax, tables(, %ecx, 8)
    movl %ecx, %eax
    shrl $11, %eax
    movl %eax, tables + 4(, %ecx, 8)
    incl %ecx
    cmpl $512 * GIBIBYTES, %ecx
    jb 2b
    lgdtl segments_at
    ljmpl $8, $into_long_mode

into_long_mode:
    movl $16, %eax
    movl %eax, %ds
    movl %eax, %es
    movl %eax, %ss
    movl $1 << 5, %eax      /* PAE, and not OSFXSR: an instruction of SSE is refused */
    movl %eax, %cr4
    movl $tops, %eax
    movl %eax, %cr3
    movl $0xc0000080, %ecx
    rdmsr
    orl $1 << 8, %eax
    wrmsr
    movl $0x80000011, %eax
    movl %eax, %cr0
    ljmpl $24, $in_long_mode

    .code64
in_long_mode:
    movl $APIC + 0x20, %eax
    movl (%rax), %edi
    shrl $24, %edi          /* the number of this CPU */
    movl %edi, %eax
    incl %eax
    imull $STACK, %eax
    leaq stacks(%rax), %rsp
    call cpu_main
    hlt

/* Where every other CPU starts, with 16 bits, once this is copied to TRAMPOLINE. */
    .code16
    .globl trampoline, trampoline_end
trampoline:
    cli
    xorw %ax, %ax
    movw %ax, %ds
    lgdtl TRAMPOLINE + 1f - trampoline
    movl $0x11, %eax
    movl %eax, %cr0
    ljmpl $8, $into_long_mode
1:  .word 31
    .long segments
trampoline_end:

    .code64
/* void call_on(void *top, void (*call)(void)): calls with the stack that ends there. */
    .globl call_on
call_on:
    pushq %rbp
    movq %rsp, %rbp
    movq %rdi, %rsp
    call *%rsi
    movq %rbp, %rsp
    popq %rbp
    ret

/* An interrupt goes on with the stack that it finds, right below the stack pointer. */
    .globl vectors
    .balign 16
vectors:
    .set vector, 0
    .rept VECTORS
    .balign 16
    .if !(0x227d00 >> vector & 1)
    pushq $0                /* the CPU pushes no error code */
    .endif
    pushq $vector
    jmp interrupted
    .set vector, vector + 1
    .endr

interrupted:
    pushq %rax
    pushq %rcx
    pushq %rdx
    pushq %rsi
    pushq %rdi
    pushq %r8
    pushq %r9
    pushq %r10
    pushq %r11
    movq %rsp, %rdi
    cld
    call interrupt
    popq %r11
    popq %r10
    popq %r9
    popq %r8
    popq %rdi
    popq %rsi
    popq %rdx
    popq %rcx
    popq %rax
    addq $16, %rsp
    iretq

    .section .rodata
    .balign 8
segments:
    .quad 0, 0x00cf9b000000ffff, 0x00cf93000000ffff, 0x00af9b000000ffff
segments_at:
    .word 31
    .long segments

    .data
    .globl start_info
start_info:
    .quad 0

    .bss
    .balign 4096
tops:
    .skip 2 * 4096
tables:
    .skip GIBIBYTES * 4096
    .globl stacks
stacks:
    .skip CPUS * STACK

    .section .note.GNU-stack, "", @progbits
