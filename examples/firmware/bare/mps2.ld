/* ARM's MPS2 board, with a Cortex-M3 (mps2-an385) or an M4F (mps2-an386). */
MEMORY { FLASH (rx) : ORIGIN = 0x0, LENGTH = 4M RAM (rwx) : ORIGIN = 0x20000000, LENGTH = 4M }
INCLUDE sections.ld
