/* The kernel lies at 1 MiB, and is entered where its note says. */
ENTRY(start)
PHDRS { code PT_LOAD; note PT_NOTE; }
SECTIONS {
    . = 0x100000;
    .note : { *(.note.pvh) } :code :note
    .text : { *(.text*) } :code
    .rodata : { *(.rodata*) }
    .data : { *(.data*) }
    .bss : { *(.bss*) *(COMMON) }
    kernel_end = .;
    /DISCARD/ : { *(.comment) *(.eh_frame) *(.note.gnu*) *(.note.GNU*) *(.llvm_addrsig) }
}
