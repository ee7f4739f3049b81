; A jump to where no code was written. The image has no byte at F100h, as after a link that left a function out.

        .text                   ; linked at F000h
start:  mov     #0x0280, sp     ; the stack grows down from 0280h
        jmp     lost            ; out of the image

lost = 0xF100                   ; nothing is linked there

        .section .reset, "a"    ; linked at FFFEh
        .word   start           ; the reset vector
