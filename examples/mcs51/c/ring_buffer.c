/* A ring buffer: a line of port 3 says whether a byte of port 1 is put in, or one is taken out to port 2. */
#include <8052.h>

#define SIZE 16
#define PUT P3_2

static __idata unsigned char ring[SIZE];
static unsigned char first;
static unsigned char count;

void put(unsigned char byte)
{
    if (count < SIZE) {
        ring[(first + count) & (SIZE - 1)] = byte;
        count++;
    }
}

unsigned char take(void)
{
    unsigned char byte = 0;
    if (count) {
        byte = ring[first];
        first = (first + 1) & (SIZE - 1);
        count--;
    }
    return byte;
}

void main(void)
{
    first = 0;
    count = 0;
    for (;;) {
        if (PUT)
            put(P1);
        else
            P2 = take();
    }
}
