/* A checksum: the sum of a table's bytes in code memory goes to port 1. It is F8h. */
#include <8052.h>

static __code const unsigned char table[16] = {
    0x10, 0x32, 0x54, 0x76, 0x98, 0xBA, 0xDC, 0xFE,
    0x01, 0x23, 0x45, 0x67, 0x89, 0xAB, 0xCD, 0xEF,
};

unsigned char checksum(void)
{
    unsigned char sum = 0;
    unsigned char i;
    for (i = 0; i < sizeof table; i++)
        sum += table[i];
    return sum;
}

void main(void)
{
    P1 = checksum();
    for (;;)
        ;
}
