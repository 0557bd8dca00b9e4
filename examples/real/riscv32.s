# SPDX-License-Identifier: MIT OR Apache-2.0
# What picolibc's start files and `sbrk` take of a linker script. The emulator fills all sections, so
# that no data is copied and none is cleared.
    .globl __stack, __data_start, __data_source, __data_size, __bss_size, __tls_base
    .globl __heap_start, __heap_end
    .set __data_start, 0x80200000
    .set __data_source, 0x80200000
    .set __data_size, 0
    .set __bss_size, 0
    .set __tls_base, 0x80180000
    .set __heap_start, 0x80400000
    .set __heap_end, 0x80600000
    .set __stack, 0x80800000
