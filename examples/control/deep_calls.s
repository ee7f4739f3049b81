; Eight functions, each of which calls the next, from two places. A location keeps its last six call sites, so the deepest
; functions don't know which of the two they come from. Each return still goes where the stack says.

        .text                   ; linked at F000h
start:  mov     #0x0280, sp     ; the stack grows down from 0280h
        call    #one
        call    #one
done:   jmp     done

one:    call    #two
        ret
two:    call    #three
        ret
three:  call    #four
        ret
four:   call    #five
        ret
five:   call    #six
        ret
six:    call    #seven
        ret
seven:  call    #eight
        ret
eight:  ret

        .section .reset, "a"    ; linked at FFFEh
        .word   start           ; the reset vector
