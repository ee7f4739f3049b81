; A jump on N and V, of which N is known and V isn't: it may go both ways.

        .text                   ; linked at F000h
start:  cmp     &0x0120, &0x0122 ; leaves N and V as the ports have it
        bis     #4, sr          ; sets N
        jl      less
        jmp     start           ; where V was set too
less:   jmp     less

        .section .reset, "a"    ; linked at FFFEh
        .word   start           ; the reset vector
