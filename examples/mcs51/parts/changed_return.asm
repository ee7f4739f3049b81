; A handler that changes its return address on the stack: RETI goes there, and not back to the loop.

        .area   CODE (ABS)
        .org    0x0000
        ljmp    start
        .org    0x0003          ; external interrupt 0
        mov     0x40, #<awake   ; the low byte of the return address
        reti                    ; to awake, with the high byte as it was pushed

        .org    0x0030
start:  mov     sp, #0x3F       ; the return address is pushed to 40h and 41h
        mov     ie, #0x81       ; EA and EX0
wait:   sjmp    wait
awake:  mov     ie, #0
        cpl     p1.0
        sjmp    start
