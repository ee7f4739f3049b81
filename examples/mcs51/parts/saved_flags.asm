; PUSH PSW and POP PSW around an ADD: CY is again what it was, and the branch goes one way.

        .area   CODE (ABS)
        .org    0x0000
start:  mov     sp, #0x3F       ; the stack grows up from 40h
        setb    c
        push    psw
        mov     a, p1           ; any byte
        add     a, #0x64        ; CY is whatever the sum gives
        pop     psw
        jnc     lost            ; never: CY was 1 when it was saved
done:   sjmp    done
lost:   sjmp    lost
