/* The table that is linked in. */
    .section .rodata
    .globl table_begin, table_end
    .balign 16
table_begin:
    .incbin TABLE
table_end:
    .section .note.GNU-stack, "", @progbits
