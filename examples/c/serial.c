/* A serial port: its interrupt puts each byte that comes into a ring, and the main loop takes them out and sends them back. */
#include "chip.h"

#define RECEIVED (*(const volatile unsigned char *)0x0076)
#define TO_SEND (*(volatile unsigned char *)0x0077)
#define ENABLE (*(volatile unsigned char *)0x0001)
#define FLAGS (*(const volatile unsigned char *)0x0003)
#define CAN_RECEIVE 0x40
#define CAN_SEND 0x80
#define SIZE 16

static volatile unsigned char ring[SIZE];
static volatile unsigned char put;
static unsigned char taken;

__attribute__((interrupt(7))) void receive(void)
{
    unsigned char at = put & (SIZE - 1);
    ring[at] = RECEIVED;
    put = at + 1;
}

int main(void)
{
    WATCHDOG = WATCHDOG_OFF;
    put = 0;
    taken = 0;
    ENABLE = CAN_RECEIVE;
    __asm__ volatile("bis #8, sr");
    for (;;) {
        if (taken != (put & (SIZE - 1)) && (FLAGS & CAN_SEND)) {
            TO_SEND = ring[taken];
            taken = (taken + 1) & (SIZE - 1);
        }
    }
}
