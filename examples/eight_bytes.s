; Eight bytes: the least program with a stack. It sets the stack pointer and then waits for ever.

        .text                   ; linked at F000h
start:  mov     #0x0280, sp     ; the stack grows down from 0280h
wait:   jmp     wait            ; for ever: nothing else can run

        .section .reset, "a"    ; linked at FFFEh
        .word   start           ; the reset vector: where the chip starts
