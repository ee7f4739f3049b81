; A loop from -4 up to 3, by a comparison of numbers with a sign.

        .text                   ; linked at F000h
start:  mov     #-4, r10
again:  mov.b   r10, 0x0204(r10) ; writes 0200h to 0207h
        add     #1, r10
        cmp     #4, r10
        jl      again
done:   jmp     done

        .section .reset, "a"    ; linked at FFFEh
        .word   start           ; the reset vector
