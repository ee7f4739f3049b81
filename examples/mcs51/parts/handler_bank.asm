; A handler with a bank of its own: it counts in R2 of bank 1, and R2 of bank 0 stays as it was.

        .area   CODE (ABS)
        .org    0x0000
        ljmp    start
        .org    0x000B          ; timer 0
        push    psw
        setb    rs0             ; bank 1
        inc     r2              ; 0Ah
        pop     psw             ; bank 0 again, and the flags
        reti

        .org    0x0030
start:  mov     sp, #0x3F       ; the stack grows up from 40h
        mov     0x0A, #0
        mov     r2, #5          ; 02h
        mov     ie, #0x82       ; EA and ET0
wait:   cjne    r2, #5, fault   ; never: no handler writes 02h
        sjmp    wait
fault:  sjmp    fault
