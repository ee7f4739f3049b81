/* A multiplication by shifts and sums, since this chip has no other: two bytes of the port. */
#include "chip.h"

unsigned int multiply(unsigned char left, unsigned char right)
{
    unsigned int product = 0;
    for (unsigned int bit = 0; bit < 8; bit++) {
        product <<= 1;
        if (right & 0x80)
            product += left;
        right <<= 1;
    }
    return product;
}

int main(void)
{
    WATCHDOG = WATCHDOG_OFF;
    PORT_DIRECTION = 0xFF;
    for (;;) {
        unsigned char left = PORT_IN;
        unsigned char right = PORT_IN;
        unsigned int product = multiply(left, right);
        PORT_OUT = product >> 8;
        PORT_OUT = product;
    }
}
