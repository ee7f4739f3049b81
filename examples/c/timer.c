/* A timer's interrupt counts ticks, and each tenth lights the next lamp. The main loop waits for it with interrupts allowed. */
#include "chip.h"

#define TIMER_CONTROL (*(volatile unsigned int *)0x0160)
#define TIMER_CAPTURE (*(volatile unsigned int *)0x0162)
#define TIMER_COMPARE (*(volatile unsigned int *)0x0172)
#define TICKS 10

static const unsigned char lights[8] = {0x01, 0x02, 0x04, 0x08, 0x08, 0x04, 0x02, 0x01};
static volatile unsigned char ticks;

__attribute__((interrupt(9))) void tick(void)
{
    if (ticks)
        ticks--;
}

int main(void)
{
    unsigned char lamp = 0;
    WATCHDOG = WATCHDOG_OFF;
    PORT_DIRECTION = 0x0F;
    ticks = TICKS;
    TIMER_COMPARE = 1000;
    TIMER_CAPTURE = 0x0010;
    TIMER_CONTROL = 0x0210;
    __asm__ volatile("bis #8, sr");
    for (;;) {
        if (ticks == 0) {
            ticks = TICKS;
            PORT_OUT = lights[lamp];
            lamp = (lamp + 1) & 7;
        }
    }
}
