; A jump through a table, where an interrupt may come between the comparison and the jump behind it. The handler changes the
; flags, and RETI restores them: so the number is still below 4 where the jump isn't taken.

        .text                   ; linked at F000h
start:  mov     #0x0280, sp     ; the stack grows down from 0280h
        bis     #8, sr          ; interrupts are allowed from here on
again:  mov     &0x0120, r15
        cmp     #4, r15
        jc      again
        add     r15, r15        ; two bytes a word
        mov     table(r15), pc

first:  jmp     again
second: jmp     again
third:  jmp     again
fourth: jmp     again

count:  add     #1, &0x0200     ; counts interrupts, and changes the flags
        reti

table:  .word   first, second, third, fourth

        .section .vector, "a"   ; linked at FFF2h
        .word   count           ; an interrupt vector
        .section .reset, "a"    ; linked at FFFEh
        .word   start           ; the reset vector
