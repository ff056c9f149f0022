/* The micro:bit, with a Cortex-M0. */
MEMORY { FLASH (rx) : ORIGIN = 0x0, LENGTH = 256K RAM (rwx) : ORIGIN = 0x20000000, LENGTH = 16K }
INCLUDE sections.ld
