/* Lamps in turn: the interrupt of timer 0 counts, and each tenth time the main loop lights the next lamp. */
#include <8052.h>

#define TICKS 10

static __code const unsigned char lights[8] = {0x01, 0x02, 0x04, 0x08, 0x08, 0x04, 0x02, 0x01};

static volatile unsigned char ticks;

void tick(void) __interrupt(TF0_VECTOR)
{
    TH0 = 0xD8;
    if (ticks)
        ticks--;
}

void main(void)
{
    unsigned char lamp = 0;
    ticks = TICKS;
    TMOD = 0x01;
    ET0 = 1;
    EA = 1;
    TR0 = 1;
    for (;;) {
        while (ticks)
            ;
        ticks = TICKS;
        P1 = lights[lamp];
        lamp = (lamp + 1) & 7;
    }
}
