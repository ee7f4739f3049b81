/* Code and tables from C000h on, variables from 0200h on, and the vectors from FFE0h to FFFFh: of interrupt N, which a
   function with __attribute__((interrupt(N))) handles, at FFE0h + 2 N, and of the reset at FFFEh. A vector that no function has
   isn't in the image, and its interrupt never comes. */
MEMORY {
    ram (rw) : ORIGIN = 0x0200, LENGTH = 0x0800
    rom (rx) : ORIGIN = 0xC000, LENGTH = 0x3FE0
    vectors (r) : ORIGIN = 0xFFE0, LENGTH = 0x0020
}
SECTIONS {
    .text : { KEEP(*(.start)) *(.text .text.*) *(.rodata .rodata.*) } > rom
    .vector0 0xFFE0 : { KEEP(*(__interrupt_vector_0)) } > vectors
    .vector1 0xFFE2 : { KEEP(*(__interrupt_vector_1)) } > vectors
    .vector2 0xFFE4 : { KEEP(*(__interrupt_vector_2)) } > vectors
    .vector3 0xFFE6 : { KEEP(*(__interrupt_vector_3)) } > vectors
    .vector4 0xFFE8 : { KEEP(*(__interrupt_vector_4)) } > vectors
    .vector5 0xFFEA : { KEEP(*(__interrupt_vector_5)) } > vectors
    .vector6 0xFFEC : { KEEP(*(__interrupt_vector_6)) } > vectors
    .vector7 0xFFEE : { KEEP(*(__interrupt_vector_7)) } > vectors
    .vector8 0xFFF0 : { KEEP(*(__interrupt_vector_8)) } > vectors
    .vector9 0xFFF2 : { KEEP(*(__interrupt_vector_9)) } > vectors
    .vector10 0xFFF4 : { KEEP(*(__interrupt_vector_10)) } > vectors
    .vector11 0xFFF6 : { KEEP(*(__interrupt_vector_11)) } > vectors
    .vector12 0xFFF8 : { KEEP(*(__interrupt_vector_12)) } > vectors
    .vector13 0xFFFA : { KEEP(*(__interrupt_vector_13)) } > vectors
    .vector14 0xFFFC : { KEEP(*(__interrupt_vector_14)) } > vectors
    .reset 0xFFFE : { KEEP(*(.reset)) } > vectors
    .bss (NOLOAD) : { *(.bss .bss.*) } > ram
    .data : { *(.data .data.*) } > ram
    ASSERT(SIZEOF(.data) == 0, "a variable has a first value, and nothing would copy it into RAM")
    /DISCARD/ : { *(.comment) *(.note*) *(.MSP430.attributes) }
}
