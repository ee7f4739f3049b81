; A jump table without a check of the number. It is the program of jump_table.s, with two instructions that do
; nothing in place of the comparison and its jump: any number indexes the table, and so any word may be jumped to.

        .text                   ; linked at F000h
start:  mov     &0x0120, r15    ; any number: the port gives what it likes
        nop                     ; here the number should be compared with 4
        nop
        add     r15, r15        ; two bytes an entry
        mov     table(r15), pc  ; the jump through whatever stands there

other:  jmp     other
first:  jmp     first
second: jmp     second
third:  jmp     third
fourth: jmp     fourth

table:  .word   first, second, third, fourth

        .section .reset, "a"    ; linked at FFFEh
        .word   start           ; the reset vector
