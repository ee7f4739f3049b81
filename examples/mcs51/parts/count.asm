; A loop that a byte of RAM counts: it toggles a line ten times.

        .area   CODE (ABS)
        .org    0x0000
start:  mov     0x30, #10
again:  cpl     p1.0
        djnz    0x30, again     ; 30h is 1 to 10 here, and 0 behind the loop
        mov     a, 0x30
        jnz     start           ; never: 30h is 0
done:   sjmp    done
