; A handler that calls a function.

        .text                   ; linked at F000h
start:  mov     #0x0280, sp     ; the stack grows down from 0280h
        bis     #8, sr          ; interrupts are allowed from here on
wait:   jmp     wait            ; an interrupt may come at each turn

toggle: call    #lamp
        reti

lamp:   xor.b   #1, &0x0021     ; toggles the lamp
        ret

        .section .vector, "a"   ; linked at FFF2h
        .word   toggle          ; an interrupt vector
        .section .reset, "a"    ; linked at FFFEh
        .word   start           ; the reset vector
