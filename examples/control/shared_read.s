; Three ways lead to one read, one of them by a jump backward to an address that nothing reached before. What the ways know is put
; together in the order of their addresses, and so is what is known of the address that is read.

        .text                   ; linked at F000h
behind: mov     r8, r5          ; 8000h
        jmp     read

        .org    0x20
start:  mov     #0x0280, sp
        mov     &0x0120, r6
        mov     r6, r7
        and     #0x001F, r7
        bis     #0xC000, r7     ; C000h to C01Fh
        mov     #0x8000, r8
        mov     #0, r5
        bit     #1, r6
        jnz     read            ; 0
        bit     #2, r6
        jz      behind
        mov     r7, r5
        jmp     read

read:   mov.b   @r5, r9
done:   jmp     done

        .section .reset, "a"    ; linked at FFFEh
        .word   start           ; the reset vector
