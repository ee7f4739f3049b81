; A handler that wakes its caller. Before it returns it clears the sleep bits in the SR that it will restore,
; so the program goes on awake. The handler writes to a place of the stack that the chip itself pushed.

        .text                   ; linked at F000h
start:  mov     #0x0280, sp     ; the stack grows down from 0280h
        bis     #8, sr          ; interrupts are allowed from here on
wait:   jmp     wait            ; an interrupt may come at each turn

wake:   bic     #0x00F0, 0(sp)  ; clears four bits of the pushed SR: CPUOFF, OSCOFF, SCG0 and SCG1
        reti                    ; restores SR and PC

        .section .vector, "a"   ; linked at FFF2h
        .word   wake            ; an interrupt vector
        .section .reset, "a"    ; linked at FFFEh
        .word   start           ; the reset vector
