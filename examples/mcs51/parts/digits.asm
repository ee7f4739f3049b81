; MOVC from a table of the image: the segments of a digit.

        .area   CODE (ABS)
        .org    0x0000
start:  mov     a, p1
        anl     a, #0x07        ; 0 to 7
        mov     dptr, #segments
        movc    a, @a+dptr      ; one of the eight bytes below
        jz      start           ; never: none of them is 0
        mov     p2, a
        sjmp    start

segments:
        .db     0x3F, 0x06, 0x5B, 0x4F, 0x66, 0x6D, 0x7D, 0x07
