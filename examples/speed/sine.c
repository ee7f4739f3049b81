/* Sines, cosines and square roots by fixed point: four waves that are added up, by a series, by a table and by CORDIC. */
#include "../c/chip.h"

#define ONE 0x4000

static int product(int a, int b)
{
    return (int)(((long)a * b) >> 14);
}

/* The sine of an angle of -8000h to 7FFFh, for -pi to pi, by x - x^3/6 + x^5/120. */
static int by_series(int angle)
{
    if (angle > 0x4000)
        angle = 0x8000u - (unsigned int)angle;
    else if (angle < -0x4000)
        angle = 0x8000u - (unsigned int)angle;
    int x = product(angle, 25736);
    int square = product(x, x);
    int cube = product(x, square);
    return x - cube / 6 + product(cube, square) / 120;
}

static const int quarter[17] = {0, 1606, 3196, 4756, 6270, 7723, 9102, 10394, 11585, 12665, 13623, 14449, 15137, 15679, 16069, 16305, 16384};

static int by_table(unsigned int angle)
{
    unsigned int place = (angle >> 10) & 15;
    int rest = angle & 0x3FF;
    int low, high;
    if (angle & 0x4000) {
        low = quarter[16 - place];
        high = quarter[15 - place];
    } else {
        low = quarter[place];
        high = quarter[place + 1];
    }
    int value = low + (int)(((long)(high - low) * rest) >> 10);
    return angle & 0x8000 ? -value : value;
}

static const int angles[14] = {8192, 4836, 2555, 1297, 651, 326, 163, 81, 41, 20, 10, 5, 3, 1};

static int by_turns(int angle)
{
    int x = 9949, y = 0;
    for (unsigned int i = 0; i < 14; i++) {
        int dx = x >> i, dy = y >> i;
        if (angle >= 0) {
            x -= dy;
            y += dx;
            angle -= angles[i];
        } else {
            x += dy;
            y -= dx;
            angle += angles[i];
        }
    }
    return y;
}

static unsigned int root(unsigned int n)
{
    unsigned int r = 0;
    for (unsigned int bit = 0x4000; bit != 0; bit >>= 2) {
        if (n >= r + bit) {
            n -= r + bit;
            r = (r >> 1) + bit;
        } else {
            r >>= 1;
        }
    }
    return r;
}

struct wave {
    unsigned int angle;
    unsigned int step;
    int loudness;
};

static struct wave waves[4];

int main(void)
{
    WATCHDOG = WATCHDOG_OFF;
    PORT_DIRECTION = 0xFF;
    for (unsigned int i = 0; i < 4; i++) {
        waves[i].angle = 0;
        waves[i].step = PORT_IN << 4;
        waves[i].loudness = PORT_IN << 5;
    }
    for (;;) {
        int all = 0;
        unsigned char kind = PORT_IN;
        for (unsigned int i = 0; i < 4; i++) {
            int value;
            if (kind & 1)
                value = by_series(waves[i].angle);
            else if (kind & 2)
                value = by_table(waves[i].angle);
            else
                value = by_turns((int)waves[i].angle >> 1);
            waves[i].angle += waves[i].step;
            all += product(value, waves[i].loudness);
        }
        PORT_OUT = all >> 8;
        PORT_OUT = all;
        PORT_OUT = root(product(all, all));
    }
}
