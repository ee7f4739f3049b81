; A loop that counts down to 0, and clears eight bytes from the last to the first.

        .text                   ; linked at F000h
start:  mov     #8, r10
again:  mov.b   #0, 0x01FF(r10) ; clears 0207h down to 0200h
        dec     r10
        jnz     again
done:   jmp     done

        .section .reset, "a"    ; linked at FFFEh
        .word   start           ; the reset vector
