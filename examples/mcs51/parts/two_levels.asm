; Two interrupts that write one byte: the timer's is of the high level, and may come within the other's handler.

        .area   CODE (ABS)
        .org    0x0000
        ljmp    start
        .org    0x0003          ; external interrupt 0, low level
        mov     0x28, #1
        reti
        .org    0x000B          ; timer 0, high level
        mov     0x28, #2
        reti

        .org    0x0030
start:  mov     sp, #0x3F       ; the stack grows up from 40h
        mov     0x28, #0
        mov     ip, #0x02       ; ET0 is of the high level
        mov     ie, #0x83       ; EA, ET0 and EX0
wait:   mov     a, 0x28         ; 0, 1 or 2
        cjne    a, #3, wait
never:  sjmp    never
