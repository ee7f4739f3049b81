; MOVX through a DPTR that is worked out: one of sixteen bytes of external memory, from 8000h on in steps of 16.

        .area   CODE (ABS)
        .org    0x0000
start:  mov     a, p1
        anl     a, #0xF0        ; 00h, 10h, .. F0h
        mov     dptr, #0x8000
        add     a, dpl
        mov     dpl, a
        mov     a, #0x55
        movx    @dptr, a
        inc     dptr
        movx    a, @dptr        ; the byte behind it
done:   sjmp    done
