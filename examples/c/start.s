; What runs before main: the stack grows down from the end of RAM, and after main nothing more is done.

        .section .start, "ax"
start:  mov     #0x0A00, sp
        call    #main
stop:   jmp     stop

        .section .reset, "a"    ; linked at FFFEh
        .word   start           ; the reset vector
