ENTRY(_start)
SECTIONS {
  . = 0x80000000;
  .text : { *(.text.start) *(.text .text.*) *(.rodata .rodata.* .srodata .srodata.*) }
  .data : ALIGN(8) { *(.data .data.*) __global_pointer$ = . + 0x800; *(.sdata .sdata.*) *(.tdata .tdata.*) *(.tbss .tbss.*) . = ALIGN(4); }
  .bss : ALIGN(8) { __bss_start = .; *(.sbss .sbss.*) *(.bss .bss.*) *(COMMON) . = ALIGN(8); __bss_end = .; __heap_start = .; }
  __heap_end = 0x803e0000;
  __stack = 0x80400000;
}
