; Two calls of one function. Each return must go back to its own call, and no other.

        .text                   ; linked at F000h
start:  mov     #0x0280, sp     ; the stack grows down from 0280h
        call    #function
        call    #function
wait:   jmp     wait

function:
        mov     @sp+, pc        ; the return: RET is this instruction

        .section .reset, "a"    ; linked at FFFEh
        .word   start           ; the reset vector
