; A store into the program itself. The word at FFFEh is the reset vector, in the image. The analysis takes the image
; as constant, so a store that may write it is a site that it must leave open.

        .text                   ; linked at F000h
start:  mov     #1, &0xFFFF     ; a word at an odd address: the chip writes FFFEh and FFFFh
wait:   jmp     wait

        .section .reset, "a"    ; linked at FFFEh
        .word   start           ; the reset vector
