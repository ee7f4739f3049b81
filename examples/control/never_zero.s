; A number from 0 to 511 plus 1 is never 0: the jump to where nothing stands isn't taken.

        .text                   ; linked at F000h
start:  mov     &0x0120, r5     ; a peripheral: any word
        and     #0x01FF, r5
        add     #1, r5          ; 1 to 512
        jeq     nothing
done:   jmp     done
nothing:                        ; the image ends here

        .section .reset, "a"    ; linked at FFFEh
        .word   start           ; the reset vector
