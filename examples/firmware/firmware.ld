/*
 * The kernel's own memory is outside base to end: nobody can be given it. The memory that is shared out begins with five
 * areas that serve the kernel; after them each task has a block for its code and one for its data and stack, and the uploader
 * one more. A region of an ARMv7-M's MPU is a power of two of bytes, at a multiple of itself: most blocks are so, and the
 * uploader's data, of 1.5 KiB, take two.
 */
MEMORY { FLASH (rx)   : ORIGIN = 0x00000000, LENGTH = 256K
         KERNEL (rw)  : ORIGIN = 0x20000000, LENGTH = 64K
         SHARED (rwx) : ORIGIN = 0x20010600, LENGTH = 0x1e00 }

shared_start = ORIGIN(SHARED);
shared_end = ORIGIN(SHARED) + LENGTH(SHARED);

SECTIONS {
  .text : { KEEP(*(.vectors)) *(.text*) *(.rodata*) } > FLASH
  .ARM.exidx : { *(.ARM.exidx*) } > FLASH
  .stack (NOLOAD) : { . = . + 16K; stack_top = .; } > KERNEL
  .data : ALIGN(8) { data = .; *(.data*) . = ALIGN(8); data_end = .; } > KERNEL AT > FLASH
  data_load = LOADADDR(.data);
  .bss (NOLOAD) : ALIGN(8) { bss = .; *(.bss*) *(COMMON) . = ALIGN(8); bss_end = .; } > KERNEL

  .areas (NOLOAD) : { . = . + 0xa00; } > SHARED
  .tasks : {
    tasks = .;
    store_code = .;     KEEP(*(.store_code))    . = store_code + 1K;
    store_data = .;     KEEP(*(.store_data))    . = store_data + 1K;
    uploader_code = .;  KEEP(*(.uploader_code)) . = uploader_code + 1K;
    uploader_data = .;  KEEP(*(.uploader_data)) . = uploader_data + 0x600;
    uploader_spare = .; . = uploader_spare + 0x200;
    tasks_end = .;
  } > SHARED AT > FLASH
  tasks_load = LOADADDR(.tasks);
}
