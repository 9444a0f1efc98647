/* The board mps2-an385 of qemu: a Cortex-M3 with code at 0. */
MEMORY {
  FLASH (rx)  : ORIGIN = 0x00000000, LENGTH = 4M
  RAM   (rwx) : ORIGIN = 0x20000000, LENGTH = 4M
  PSRAM (rw)  : ORIGIN = 0x21000000, LENGTH = 16M
}
ENTRY(reset)
SECTIONS {
  .vectors : { KEEP(*(.vectors)) } >FLASH
  .text : { *(.text*) *(.rodata*) *(.ARM.*) } >FLASH
  .init_array : { *(.init_array*) } >FLASH
  .data : { data_start = .; *(.data*) data_end = .; } >RAM AT>FLASH
  data_load = LOADADDR(.data);
  .bss (NOLOAD) : { bss_start = .; *(.bss*) *(COMMON) bss_end = .; end = .; } >RAM
  stack_top = ORIGIN(RAM) + LENGTH(RAM);
  heap_start = ORIGIN(PSRAM);
  heap_end = ORIGIN(PSRAM) + LENGTH(PSRAM);
}
