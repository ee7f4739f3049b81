; A jump backward that is the first to reach its target.

        .area   CODE (ABS)
        .org    0x0000
start:  sjmp    test
stop:   sjmp    stop
test:   mov     a, p1           ; any byte
        jnz     stop
done:   sjmp    done
