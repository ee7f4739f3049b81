; RAM with a mirror. On this device RAM stands from 1100h to 38FFh, and its first bytes answer from 0200h to 09FFh too: old code
; names them there. What is written by one name is read by the other.

        .text                   ; linked at F000h
start:  mov     #0x3900, sp     ; the stack grows down from behind RAM
        mov     #blink, &0x0200 ; what is to be done, by old code

again:  mov     &0x1100, r15    ; the same word, by new code
        call    r15             ; so this has one target
        jmp     again

blink:  xor.b   #1, &0x0021     ; toggles a lamp at a port
        ret

        .section .reset, "a"    ; linked at FFFEh
        .word   start           ; the reset vector
