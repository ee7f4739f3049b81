/* Lamps: eight steps of a light that runs to and fro, and then eight of a Gray code, for ever. */
#include "chip.h"

static const unsigned char lights[8] = {0x01, 0x02, 0x04, 0x08, 0x08, 0x04, 0x02, 0x01};

void wait(void)
{
    for (volatile unsigned int i = 0; i < 5000; i++)
        ;
}

void chase(void)
{
    for (unsigned int i = 0; i < sizeof lights; i++) {
        PORT_OUT = lights[i];
        wait();
    }
}

void count(void)
{
    for (unsigned int i = 0; i < 8; i++) {
        PORT_OUT = i ^ (i >> 1);
        wait();
    }
}

int main(void)
{
    WATCHDOG = WATCHDOG_OFF;
    PORT_DIRECTION = 0x0F;
    for (;;) {
        chase();
        count();
    }
}
