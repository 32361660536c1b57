ENTRY(first)
SECTIONS { . = 0x80000000; .text : { *(.text.first) *(.text.start) *(.text .text.*) } .rodata : { *(.rodata*) } .data : { *(.data*) } .bss : { *(.bss*) } /DISCARD/ : { *(.comment) *(.riscv.attributes) } }
