/* 256 KB of RAM as on the logger, or what --defsym=RAM_SIZE says; the stack grows down from its end. */
RAM_BYTES = DEFINED(RAM_SIZE) ? RAM_SIZE : 256K;
MEMORY {
  FLASH (rx) : ORIGIN = 0, LENGTH = 256K
  RAM (rwx) : ORIGIN = 0x20000000, LENGTH = 256K
}
ENTRY(reset)
SECTIONS {
  .text : { KEEP(*(.vectors)) *(.text* .rodata*) . = ALIGN(8); } >FLASH
  .exidx : { *(.ARM.exidx*) } >FLASH
  __data_load = LOADADDR(.data);
  .data : ALIGN(8) { __data_start = .; *(.data*) . = ALIGN(8); __data_end = .; } >RAM AT>FLASH
  .bss (NOLOAD) : ALIGN(8) { __bss_start = .; *(.bss* COMMON) . = ALIGN(8); __bss_end = .; end = .; } >RAM
  __stack_top = ORIGIN(RAM) + RAM_BYTES;
}
ASSERT(__bss_end + 1024 <= __stack_top, "less than 1 KB is left for the stack")
