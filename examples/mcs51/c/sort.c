/* A sort: eight numbers come from port 1, and go to port 2 from the least to the greatest. */
#include <8052.h>

#define COUNT 8

static __idata unsigned char numbers[COUNT];

void sort(void)
{
    unsigned char pass, i, greater;
    for (pass = 1; pass < COUNT; pass++) {
        for (i = 0; i < COUNT - 1; i++) {
            if (numbers[i] > numbers[i + 1]) {
                greater = numbers[i];
                numbers[i] = numbers[i + 1];
                numbers[i + 1] = greater;
            }
        }
    }
}

void main(void)
{
    unsigned char i;
    for (i = 0; i < COUNT; i++)
        numbers[i] = P1;
    sort();
    for (i = 0; i < COUNT; i++)
        P2 = numbers[i];
    for (;;)
        ;
}
