/* A binary search in a table of squares: where the byte of the port stands in it, or FFh. */
#include "chip.h"

#define COUNT 16

static const unsigned char squares[COUNT] = {
    0, 1, 4, 9, 16, 25, 36, 49, 64, 81, 100, 121, 144, 169, 196, 225,
};

unsigned char search(unsigned char wanted)
{
    unsigned int low = 0;
    unsigned int high = COUNT;
    while (low < high) {
        unsigned int middle = (low + high) / 2;
        if (squares[middle] == wanted)
            return middle;
        if (squares[middle] < wanted)
            low = middle + 1;
        else
            high = middle;
    }
    return 0xFF;
}

int main(void)
{
    WATCHDOG = WATCHDOG_OFF;
    PORT_DIRECTION = 0xFF;
    for (;;)
        PORT_OUT = search(PORT_IN);
}
