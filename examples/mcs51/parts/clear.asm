; Stores through R0, which counts down to 1: RAM from 3Fh down to 01h is cleared, and R0 itself, at 00h, isn't.

        .area   CODE (ABS)
        .org    0x0000
start:  mov     r0, #0x3F
clear:  mov     @r0, #0
        djnz    r0, clear
done:   sjmp    done
