; A table of LJMPs, three bytes each: 30h is below 4, so that three times it is 0, 3, 6 or 9, and nothing between.

        .area   CODE (ABS)
        .org    0x0000
start:  mov     a, p1           ; which of the four it shall be
        cjne    a, #4, checked  ; sets CY where A is below 4
checked:
        jnc     start           ; no such number: read the port again
        mov     0x30, a
        mov     a, 0x30
        add     a, 0x30
        add     a, 0x30         ; three times the number
        mov     dptr, #table
        jmp     @a+dptr

table:  ljmp    stop
        ljmp    slow
        ljmp    fast
        ljmp    back

stop:   mov     p2, #0x00
        sjmp    start
slow:   mov     p2, #0x01
        sjmp    start
fast:   mov     p2, #0x03
        sjmp    start
back:   mov     p2, #0x80
        sjmp    start
