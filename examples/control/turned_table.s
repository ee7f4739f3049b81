; A jump to one of 32 even addresses from FFF0h on, which go round at FFFFh. No code stands at most of them.

        .text                   ; linked at F000h
start:  mov     &0x0120, r5
        and     #0x003E, r5
        add     #0xFFF0, r5     ; FFF0h to FFFEh, and 0000h to 002Eh
        mov     r5, pc

        .section .reset, "a"    ; linked at FFFEh
        .word   start           ; the reset vector
