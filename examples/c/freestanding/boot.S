/* A kernel image for multiboot: it goes to long mode with the first GiB mapped as it is, turns SSE on, which the library's
 * code uses, and calls run. */
    .set FLAGS, 1
    .section .multiboot, "a"
    .balign 8
    .long 0x1BADB002, FLAGS, -(0x1BADB002 + FLAGS)

    .section .bss
    .balign 4096
pml4: .skip 4096
pdpt: .skip 4096
pd:   .skip 4096
    .balign 16
stack: .skip 65536
stack_end:

    .section .rodata
    .balign 8
gdt:
    .quad 0
    .quad 0x00209A0000000000
    .quad 0x0000920000000000
gdt_end:
gdtr:
    .word gdt_end - gdt - 1
    .quad gdt

    .section .text.boot, "ax"
    .code32
    .globl _start
_start:
    cli
    movl $stack_end, %esp
    movl $pdpt, %eax
    orl $3, %eax
    movl %eax, pml4
    movl $pd, %eax
    orl $3, %eax
    movl %eax, pdpt
    xorl %ecx, %ecx
1:  movl %ecx, %eax
    shll $21, %eax
    orl $0x83, %eax
    movl %eax, pd(,%ecx,8)
    incl %ecx
    cmpl $512, %ecx
    jne 1b
    movl $pml4, %eax
    movl %eax, %cr3
    movl %cr4, %eax
    orl $0x620, %eax            /* PAE, OSFXSR, OSXMMEXCPT */
    movl %eax, %cr4
    movl $0xC0000080, %ecx
    rdmsr
    orl $0x100, %eax
    wrmsr
    movl %cr0, %eax
    andl $~0x4, %eax            /* no emulation of the coprocessor */
    orl $0x80000002, %eax
    movl %eax, %cr0
    lgdt gdtr
    ljmp $8, $long_mode
    .code64
long_mode:
    movw $16, %ax
    movw %ax, %ds
    movw %ax, %es
    movw %ax, %ss
    movq $stack_end, %rsp
    xorl %ebp, %ebp
    call run
    hlt
    .section .note.GNU-stack, "", @progbits
