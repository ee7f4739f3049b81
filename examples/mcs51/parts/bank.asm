; SETB RS0 behind an ADD: the sum leaves three flags of PSW open, and the bank is still the one.

        .area   CODE (ABS)
        .org    0x0000
start:  mov     a, p1           ; any byte
        add     a, #0x64        ; CY, AC and OV are whatever the sum gives
        setb    rs0             ; bank 1 from here on: RS1 is 0 since the reset
        mov     r2, a           ; 0Ah, and no other byte
        clr     rs0             ; bank 0 again
        mov     r2, #0          ; 02h
done:   sjmp    done
