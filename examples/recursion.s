; Recursion without end. Each call pushes a return address, so the stack grows down through all of memory.

        .text                   ; linked at F000h
start:  mov     #0x0280, sp     ; the stack grows down from 0280h
again:  call    #again          ; pushes, and never returns

        .section .reset, "a"    ; linked at FFFEh
        .word   start           ; the reset vector
