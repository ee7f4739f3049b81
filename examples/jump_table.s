; A jump table. A number comes from a port, and the program jumps to one of four places by it.

        .text                   ; linked at F000h
start:  mov     &0x0120, r15    ; any number: the port gives what it likes
        cmp     #4, r15         ; 4 and above go to `other`,
        jc      other           ; so 0 to 3 are left
        add     r15, r15        ; two bytes an entry
        mov     table(r15), pc  ; the jump through the table

other:  jmp     other
first:  jmp     first
second: jmp     second
third:  jmp     third
fourth: jmp     fourth

table:  .word   first, second, third, fourth

        .section .reset, "a"    ; linked at FFFEh
        .word   start           ; the reset vector
