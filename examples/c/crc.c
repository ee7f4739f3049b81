/* A CRC of 8 bits, polynomial 07h, over the nine digits "123456789". It is F4h. */
#include "chip.h"

static const unsigned char message[9] = {'1', '2', '3', '4', '5', '6', '7', '8', '9'};

unsigned char crc(void)
{
    unsigned char crc = 0;
    for (unsigned int i = 0; i < sizeof message; i++) {
        crc ^= message[i];
        for (unsigned int bit = 0; bit < 8; bit++) {
            if (crc & 0x80)
                crc = (unsigned char)(crc << 1) ^ 0x07;
            else
                crc = (unsigned char)(crc << 1);
        }
    }
    return crc;
}

int main(void)
{
    WATCHDOG = WATCHDOG_OFF;
    PORT_DIRECTION = 0xFF;
    PORT_OUT = crc();
    return 0;
}
