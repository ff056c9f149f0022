/* Code and constants in FLASH, all else in RAM, and the stack down from its end. */
ENTRY(reset)
SECTIONS {
  .text : { KEEP(*(.vectors)) *(.text*) *(.rodata*) *(.init) *(.fini) *(.init_array) } > FLASH
  .ARM.exidx : { __exidx_start = .; *(.ARM.*) __exidx_end = .; } > FLASH
  .data : { data_begin = .; *(.data*) data_end = .; } > RAM AT > FLASH
  data_load = LOADADDR(.data);
  .bss : { bss_begin = .; *(.bss*) *(COMMON) bss_end = .; } > RAM
  end = .;
  stack_top = ORIGIN(RAM) + LENGTH(RAM);
}
