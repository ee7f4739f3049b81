/* Where the parts of the examples in assembly stand. */
SECTIONS
{
    .text 0xF000 : { *(.text) }
    .vector 0xFFF2 : { *(.vector) }
    .reset 0xFFFE : { *(.reset) }
}
