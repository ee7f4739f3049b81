/* A debounced button: the lamp changes once the button was read as pressed eight times in a row. */
#include <8052.h>

#define BUTTON P1_3
#define LAMP P1_0
#define ENOUGH 8

static unsigned char count;

__bit pressed(void)
{
    if (BUTTON) {
        count = 0;
        return 0;
    }
    if (count == ENOUGH)
        return 0;
    count++;
    return count == ENOUGH;
}

void main(void)
{
    count = 0;
    for (;;) {
        if (pressed())
            LAMP = !LAMP;
    }
}
