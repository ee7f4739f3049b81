; A list of addresses on the stack, through which returns go one behind the other.

        .text                   ; linked at F000h
start:  mov     #0x0280, sp     ; the stack grows down from 0280h
        push    #done
        push    #second
        push    #first
        ret                     ; to first

done:   jmp     done
second: mov     #2, r10
        ret                     ; to done
first:  mov     #1, r10
        ret                     ; to second

        .section .reset, "a"    ; linked at FFFEh
        .word   start           ; the reset vector
