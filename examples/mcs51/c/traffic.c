/* A state machine: the lights of a crossing with a button. It ends in no state. */
#include <8052.h>

#define BUTTON P3_2

#define RED_LAMP 0x01
#define YELLOW_LAMP 0x02
#define GREEN_LAMP 0x04

enum { RED, STARTING, GREEN, STOPPING };

unsigned char next(unsigned char state)
{
    switch (state) {
    case RED:
        P1 = RED_LAMP | YELLOW_LAMP;
        return STARTING;
    case STARTING:
        P1 = GREEN_LAMP;
        return GREEN;
    case GREEN:
        if (BUTTON)
            return GREEN;
        P1 = YELLOW_LAMP;
        return STOPPING;
    case STOPPING:
        P1 = RED_LAMP;
        return RED;
    default:
        P1 = 0;
        return RED;
    }
}

void main(void)
{
    unsigned char state = RED;
    for (;;)
        state = next(state);
}
