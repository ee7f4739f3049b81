; A lamp and a timer. The loop counts, and the timer's interrupt toggles a lamp at a port.

        .text                   ; linked at F000h
start:  mov     #0x0280, sp     ; the stack grows down from 0280h
        mov     #0x5A80, &0x0120 ; the watchdog is held
        bis.b   #1, &0x0022     ; the pin of the lamp is an output
        mov     #0x0010, &0x0162 ; the timer may interrupt
        bis     #8, sr          ; interrupts are allowed from here on

again:  mov     #5, r10         ; counts R10 from 5 down to 0, again and again
count:  sub     #1, r10
        jne     count
        jmp     again

timer:  push    r10             ; the handler keeps R10, which the loop uses
        mov     #1, r10
        xor.b   r10, &0x0021    ; toggles the lamp
        mov     @sp+, r10       ; R10 is as the loop left it
        reti                    ; on at the instruction before which it came

        .section .vector, "a"   ; linked at FFF2h
        .word   timer           ; the timer's interrupt vector
        .section .reset, "a"    ; linked at FFFEh
        .word   start           ; the reset vector
