; One function that is called from nine places. Each call has its own copy of the function's states.

        .text                   ; linked at F000h
start:  mov     #0x0280, sp     ; the stack grows down from 0280h
        call    #next
        call    #next
        call    #next
        call    #next
        call    #next
        call    #next
        call    #next
        call    #next
        call    #next
done:   jmp     done

next:   add     #1, r10
        ret

        .section .reset, "a"    ; linked at FFFEh
        .word   start           ; the reset vector
