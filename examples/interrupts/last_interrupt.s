; A handler that clears the one bit by which interrupts are allowed, in the SR that RETI will restore, so that no other comes.

        .text                   ; linked at F000h
start:  mov     #0x0280, sp     ; the stack grows down from 0280h
        bis     #8, sr          ; interrupts are allowed from here on
wait:   bit     #8, sr
        jnz     wait
done:   jmp     done            ; once the handler was there

forbid: bic     #8, 0(sp)       ; clears GIE in the pushed SR
        reti

        .section .vector, "a"   ; linked at FFF2h
        .word   forbid          ; an interrupt vector
        .section .reset, "a"    ; linked at FFFEh
        .word   start           ; the reset vector
