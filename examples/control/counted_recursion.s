; A function that calls itself until a counter is 0: the stack has a bound.

        .text                   ; linked at F000h
start:  mov     #0x0280, sp     ; the stack grows down from 0280h
        mov     #3, r10
        call    #down
done:   jmp     done

down:   dec     r10
        jz      up
        call    #down
up:     ret

        .section .reset, "a"    ; linked at FFFEh
        .word   start           ; the reset vector
