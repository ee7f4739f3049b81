; Stores through R0 upward, and another register counts: no run writes other bytes than 38h to 3Fh.

        .area   CODE (ABS)
        .org    0x0000
start:  mov     r0, #0x38
        mov     r7, #8
fill:   mov     @r0, #0x55
        inc     r0
        djnz    r7, fill        ; nothing ties R0 to R7
done:   sjmp    done
