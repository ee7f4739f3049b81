; A loop that waits until a handler has written a variable, and then forbids interrupts.

        .text                   ; linked at F000h
start:  mov     #0x0280, sp     ; the stack grows down from 0280h
        mov     #0, &0x0200
        bis     #8, sr          ; interrupts are allowed from here on
wait:   cmp     #0, &0x0200
        jeq     wait
        bic     #8, sr
done:   jmp     done

set:    mov     #1, &0x0200
        reti

        .section .vector, "a"   ; linked at FFF2h
        .word   set             ; an interrupt vector
        .section .reset, "a"    ; linked at FFFEh
        .word   start           ; the reset vector
