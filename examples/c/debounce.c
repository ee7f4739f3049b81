/* A debounced button: the lamp changes once the button was read as pressed eight times in a row. */
#include "chip.h"

#define BUTTON 0x08
#define LAMP 0x01
#define ENOUGH 8

static unsigned char count;

unsigned char pressed(void)
{
    if (!(PORT_IN & BUTTON)) {
        count = 0;
        return 0;
    }
    if (count == ENOUGH)
        return 0;
    count++;
    return count == ENOUGH;
}

int main(void)
{
    WATCHDOG = WATCHDOG_OFF;
    PORT_DIRECTION = LAMP;
    count = 0;
    for (;;) {
        if (pressed())
            PORT_OUT ^= LAMP;
    }
}
