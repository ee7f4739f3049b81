; A handler that doesn't return: it begins anew with a stack of its own and allows interrupts. It has two frames, for the
; stack pointer of the main program and for its own.

        .text                   ; linked at F000h
start:  mov     #0x0280, sp     ; the stack grows down from 0280h
        bis     #8, sr          ; interrupts are allowed from here on
wait:   jmp     wait

again:  mov     #0x0240, sp     ; another stack
        bis     #8, sr          ; the next interrupt comes here too
idle:   jmp     idle

        .section .vector, "a"   ; linked at FFF2h
        .word   again           ; an interrupt vector
        .section .reset, "a"    ; linked at FFFEh
        .word   start           ; the reset vector
