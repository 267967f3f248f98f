/* The memory of qemu's mps2-an386, of which the programs use little: code from 0, data and stack in RAM. */
ENTRY(Reset_Handler)
MEMORY {
  CODE (rx)  : ORIGIN = 0x00000000, LENGTH = 4M
  RAM  (rwx) : ORIGIN = 0x20000000, LENGTH = 4M
}
SECTIONS {
  .text : { KEEP(*(.vectors)) *(.text*) *(.rodata*) *(.init) *(.fini) . = ALIGN(8); } > CODE
  .ARM.exidx : { __exidx_start = .; *(.ARM.exidx*) __exidx_end = .; } > CODE
  .init_array : {
    __preinit_array_start = .; KEEP(*(.preinit_array*)) __preinit_array_end = .;
    __init_array_start = .; KEEP(*(.init_array*)) __init_array_end = .;
    __fini_array_start = .; KEEP(*(.fini_array*)) __fini_array_end = .;
  } > CODE
  .data : { *(.data*) . = ALIGN(8); } > RAM AT> CODE
  __data_start = ADDR(.data);
  __data_end = ADDR(.data) + SIZEOF(.data);
  __data_load = LOADADDR(.data);
  .bss (NOLOAD) : { __bss_start__ = .; *(.bss*) *(COMMON) . = ALIGN(8); __bss_end__ = .; } > RAM
  PROVIDE(end = .);
  PROVIDE(_end = .);
  __stack = ORIGIN(RAM) + LENGTH(RAM);
}
