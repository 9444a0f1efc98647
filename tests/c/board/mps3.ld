/* The board mps3-an547 of qemu: a Cortex-M55 with code at 0, and two memories of 512 KB. */
MEMORY {
  FLASH (rx)  : ORIGIN = 0x00000000, LENGTH = 512K
  RAM   (rwx) : ORIGIN = 0x20000000, LENGTH = 512K
}
ENTRY(reset)
SECTIONS {
  .vectors : { KEEP(*(.vectors)) } >FLASH
  .text : { *(.text*) *(.rodata*) *(.ARM.*) } >FLASH
  .init_array : { *(.init_array*) } >FLASH
  .data : { data_start = .; *(.data*) data_end = .; } >RAM AT>FLASH
  data_load = LOADADDR(.data);
  .bss (NOLOAD) : { bss_start = .; *(.bss*) *(COMMON) bss_end = .; end = .; } >RAM
  stack_top = ORIGIN(RAM) + LENGTH(RAM);
}
