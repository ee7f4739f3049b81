; A bit variable: bit 0 of 20h says that the lamp is wanted. Once it is cleared, the branch on it isn't taken.

        .area   CODE (ABS)
        .org    0x0000
start:  mov     0x20, #0        ; nothing is wanted yet
read:   jb      p3.2, ask       ; the button is up
        setb    0x00            ; the lamp is wanted
ask:    jnb     0x00, read      ; no lamp is wanted
        clr     0x00
        cpl     p1.0
        jb      0x00, fault     ; never: the bit was cleared above
        sjmp    read
fault:  sjmp    fault
