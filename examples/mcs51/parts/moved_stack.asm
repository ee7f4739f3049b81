; A stack whose place is read from a port: the call's return address may lie in four places, and what RET finds isn't known.

        .area   CODE (ABS)
        .org    0x0000
start:  mov     a, p1
        anl     a, #0x03
        add     a, #0x40
        mov     sp, a           ; 40h to 43h
        lcall   lamp
done:   sjmp    done

lamp:   cpl     p1.0
        ret                     ; to any address, for all that is known of the stack
