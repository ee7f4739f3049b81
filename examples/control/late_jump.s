; A comparison whose register is written before the jump: the jump says nothing of the register any more.

        .text                   ; linked at F000h
start:  mov     &0x0120, r15
        cmp     #4, r15
        mov     #9, r15         ; leaves the flags
        jc      done
        mov.b   #0, 0x0200(r15) ; clears 0209h, also where the number was below 4
done:   jmp     done

        .section .reset, "a"    ; linked at FFFEh
        .word   start           ; the reset vector
