/* A state machine: the lights of a crossing with a button. It ends in no state. */
#include "chip.h"

#define BUTTON 0x80

#define RED_LAMP 0x01
#define YELLOW_LAMP 0x02
#define GREEN_LAMP 0x04

enum state { RED, STARTING, GREEN, STOPPING, OUT_OF_ORDER };

enum state next(enum state state)
{
    switch (state) {
    case RED:
        PORT_OUT = RED_LAMP | YELLOW_LAMP;
        return STARTING;
    case STARTING:
        PORT_OUT = GREEN_LAMP;
        return GREEN;
    case GREEN:
        if (!(PORT_IN & BUTTON))
            return GREEN;
        PORT_OUT = YELLOW_LAMP;
        return STOPPING;
    case STOPPING:
        PORT_OUT = RED_LAMP;
        return RED;
    default:
        PORT_OUT ^= YELLOW_LAMP;
        return OUT_OF_ORDER;
    }
}

int main(void)
{
    enum state state = RED;
    WATCHDOG = WATCHDOG_OFF;
    PORT_DIRECTION = RED_LAMP | YELLOW_LAMP | GREEN_LAMP;
    for (;;)
        state = next(state);
}
