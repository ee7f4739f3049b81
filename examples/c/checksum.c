/* A checksum: the sum of a table's bytes goes to the port. It is F8h. */
#include "chip.h"

static const unsigned char table[16] = {
    0x10, 0x32, 0x54, 0x76, 0x98, 0xBA, 0xDC, 0xFE,
    0x01, 0x23, 0x45, 0x67, 0x89, 0xAB, 0xCD, 0xEF,
};

unsigned char checksum(const unsigned char *bytes, unsigned int length)
{
    unsigned char sum = 0;
    for (unsigned int i = 0; i < length; i++)
        sum += bytes[i];
    return sum;
}

int main(void)
{
    WATCHDOG = WATCHDOG_OFF;
    PORT_DIRECTION = 0xFF;
    PORT_OUT = checksum(table, sizeof table);
    return 0;
}
