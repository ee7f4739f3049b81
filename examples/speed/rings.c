/* Four rings of words: the port says into which one a number is put, or of which the mean is told. */
#include "../c/chip.h"

#define SIZE 8

struct ring {
    unsigned int first;
    unsigned int count;
};

static unsigned int words[4][SIZE];
static struct ring rings[4];

static void put(unsigned char which, unsigned int word)
{
    struct ring *ring = &rings[which & 3];
    if (ring->count < SIZE) {
        words[which & 3][(ring->first + ring->count) & (SIZE - 1)] = word;
        ring->count++;
    }
}

static unsigned int take(unsigned char which)
{
    struct ring *ring = &rings[which & 3];
    unsigned int word = 0;
    if (ring->count > 0) {
        word = words[which & 3][ring->first & (SIZE - 1)];
        ring->first = (ring->first + 1) & (SIZE - 1);
        ring->count--;
    }
    return word;
}

static unsigned int mean(unsigned char which)
{
    unsigned int sum = 0;
    for (unsigned int i = 0; i < SIZE; i++)
        sum += words[which & 3][i];
    return sum / SIZE;
}

int main(void)
{
    WATCHDOG = WATCHDOG_OFF;
    PORT_DIRECTION = 0x0F;
    for (unsigned int i = 0; i < 4; i++) {
        rings[i].first = 0;
        rings[i].count = 0;
    }
    for (;;) {
        unsigned char order = PORT_IN;
        if (order & 0x80)
            put(order, 3 * PORT_IN);
        else if (order & 0x40)
            PORT_OUT = mean(order);
        else
            PORT_OUT = take(order);
    }
}
