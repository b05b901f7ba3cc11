/* All in one memory that begins at `base`: vectors first, the stack at its end. */
ENTRY(reset)
SECTIONS
{
  . = base;
  .text : { KEEP(*(.vectors)) *(.text .text.* .rodata .rodata.*) }
  .ARM.exidx : { *(.ARM.exidx .ARM.exidx.*) }
  .data : { *(.data .data.*) }
  .bss : ALIGN(8) { bss = .; *(.bss .bss.* COMMON) . = ALIGN(8); bss_end = .; }
  stack_top = base + 0x200000;
  /DISCARD/ : { *(.comment) *(.stack_sizes) }
}
