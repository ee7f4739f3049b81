/* A ring buffer: the port says whether a byte is put in or taken out. */
#include "chip.h"

#define SIZE 16
#define PUT 0x80

static unsigned char ring[SIZE];
static unsigned int first;
static unsigned int count;

void put(unsigned char byte)
{
    if (count < SIZE) {
        ring[(first + count) % SIZE] = byte;
        count++;
    }
}

unsigned char take(void)
{
    unsigned char byte = 0;
    if (count > 0) {
        byte = ring[first];
        first = (first + 1) % SIZE;
        count--;
    }
    return byte;
}

int main(void)
{
    WATCHDOG = WATCHDOG_OFF;
    PORT_DIRECTION = 0x7F;
    first = 0;
    count = 0;
    for (;;) {
        unsigned char byte = PORT_IN;
        if (byte & PUT)
            put(byte);
        else
            PORT_OUT = take();
    }
}
