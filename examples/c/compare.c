/* Strings: the length of a word, and whether two words are the same. */
#include "chip.h"

static const char open[] = "open";
static const char opened[] = "opened";

unsigned int length(const char *string)
{
    unsigned int length = 0;
    while (string[length] != 0)
        length++;
    return length;
}

int compare(const char *left, const char *right)
{
    while (*left != 0 && *left == *right) {
        left++;
        right++;
    }
    return (unsigned char)*left - (unsigned char)*right;
}

int main(void)
{
    WATCHDOG = WATCHDOG_OFF;
    PORT_DIRECTION = 0xFF;
    PORT_OUT = length(opened);
    PORT_OUT = compare(open, opened) == 0;
    return 0;
}
