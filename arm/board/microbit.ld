/* qemu's microbit (Cortex-M0): 256 KiB of memory for code, 16 KiB for data. */
MEMORY { CODE (rx) : ORIGIN = 0x00000000, LENGTH = 256K
         DATA (rw) : ORIGIN = 0x20000000, LENGTH = 16K }
INCLUDE board.ld
