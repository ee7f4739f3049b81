/* A sort: eight numbers come from the port, and go back to it from the least to the greatest. */
#include "chip.h"

#define COUNT 8

static unsigned char numbers[COUNT];

void sort(void)
{
    for (unsigned int pass = 1; pass < COUNT; pass++) {
        for (unsigned int i = 0; i < COUNT - 1; i++) {
            if (numbers[i] > numbers[i + 1]) {
                unsigned char greater = numbers[i];
                numbers[i] = numbers[i + 1];
                numbers[i + 1] = greater;
            }
        }
    }
}

int main(void)
{
    WATCHDOG = WATCHDOG_OFF;
    for (unsigned int i = 0; i < COUNT; i++)
        numbers[i] = PORT_IN;
    sort();
    PORT_DIRECTION = 0xFF;
    for (unsigned int i = 0; i < COUNT; i++)
        PORT_OUT = numbers[i];
    return 0;
}
