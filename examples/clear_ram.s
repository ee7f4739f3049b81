; A loop that clears memory. It ends where the address is exactly 0240h, by a test for inequality.

        .text                   ; linked at F000h
start:  mov     #0x0A00, sp     ; the stack grows down from the end of RAM
        mov     #0x0200, r5     ; R5 goes over 0200h to 023Eh
clear:  mov     #0, 0(r5)
        add     #2, r5
        cmp     #0x0240, r5
        jne     clear           ; on until R5 is 0240h, and no further
wait:   jmp     wait

        .section .reset, "a"    ; linked at FFFEh
        .word   start           ; the reset vector
