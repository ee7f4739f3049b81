/* A binary search in a table of squares: where the byte of port 1 stands in it goes to port 2, or FFh. */
#include <8052.h>

#define COUNT 16

static __code const unsigned char squares[COUNT] = {
    0, 1, 4, 9, 16, 25, 36, 49, 64, 81, 100, 121, 144, 169, 196, 225,
};

unsigned char search(unsigned char wanted)
{
    unsigned char low = 0;
    unsigned char high = COUNT;
    unsigned char middle;
    while (low < high) {
        middle = (unsigned char)(low + high) >> 1;
        if (squares[middle] == wanted)
            return middle;
        if (squares[middle] < wanted)
            low = middle + 1;
        else
            high = middle;
    }
    return 0xFF;
}

void main(void)
{
    for (;;)
        P2 = search(P1);
}
