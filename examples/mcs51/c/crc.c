/* A CRC of 8 bits, polynomial 07h, over the nine digits "123456789". It is F4h. */
#include <8052.h>

static __code const unsigned char message[9] = {'1', '2', '3', '4', '5', '6', '7', '8', '9'};

unsigned char crc(void)
{
    unsigned char crc = 0;
    unsigned char i, turn;
    for (i = 0; i < sizeof message; i++) {
        crc ^= message[i];
        for (turn = 0; turn < 8; turn++) {
            if (crc & 0x80)
                crc = (crc << 1) ^ 0x07;
            else
                crc <<= 1;
        }
    }
    return crc;
}

void main(void)
{
    P1 = crc();
    for (;;)
        ;
}
