; A jump through a table by any number: nothing says that the port's byte is one of the table's.

        .area   CODE (ABS)
        .org    0x0000
start:  mov     a, p1           ; any byte
        rl      a               ; two bytes an entry
        mov     dptr, #table
        jmp     @a+dptr

table:  sjmp    start
        sjmp    lamp
lamp:   cpl     p1.0
        sjmp    start
