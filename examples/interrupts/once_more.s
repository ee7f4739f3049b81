; A handler that may be interrupted once, by itself: a flag in RAM keeps it from a third time. Returns go back through two frames,
; so the stack has a bound.

        .text                   ; linked at F000h
start:  mov     #0x0280, sp
        mov     #0, &0x0200     ; no handler runs
        bis     #8, sr
wait:   jmp     wait

        .org    0x20
again:  cmp     #0, &0x0200
        jnz     done            ; a handler runs already
        mov     #1, &0x0200
        bis     #8, sr          ; from here on it may be interrupted
        nop
        bic     #8, sr          ; and once more behind this
        nop
        mov     #0, &0x0200
done:   reti

        .section .vector, "a"   ; linked at FFF2h
        .word   again           ; an interrupt vector
        .section .reset, "a"    ; linked at FFFEh
        .word   start           ; the reset vector
