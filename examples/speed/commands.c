/* A serial port with commands: an interrupt puts what comes into a ring, another one sends what stands in a second ring, and the
   main loop reads commands, which set, read, add up and print sixteen words in hexadecimal. */
#include "../c/chip.h"

#define RECEIVED (*(const volatile unsigned char *)0x0076)
#define TO_SEND (*(volatile unsigned char *)0x0077)
#define ENABLE (*(volatile unsigned char *)0x0001)
#define CAN_RECEIVE 0x40
#define CAN_SEND 0x80
#define SIZE 16

static volatile unsigned char in[SIZE], out[SIZE];
static volatile unsigned char in_put, in_taken, out_put, out_taken;
static unsigned int words[16];

__attribute__((interrupt(7))) void receive(void)
{
    unsigned char at = in_put & (SIZE - 1);
    in[at] = RECEIVED;
    in_put = (at + 1) & (SIZE - 1);
}

__attribute__((interrupt(6))) void sent(void)
{
    unsigned char at = out_taken & (SIZE - 1);
    if (at == out_put) {
        ENABLE = CAN_RECEIVE;
    } else {
        TO_SEND = out[at];
        out_taken = (at + 1) & (SIZE - 1);
    }
}

static unsigned char take(void)
{
    while (in_taken == in_put)
        ;
    unsigned char at = in_taken & (SIZE - 1);
    unsigned char byte = in[at];
    in_taken = (at + 1) & (SIZE - 1);
    return byte;
}

static void put(unsigned char byte)
{
    unsigned char at = out_put & (SIZE - 1);
    unsigned char next = (at + 1) & (SIZE - 1);
    while (next == out_taken)
        ;
    out[at] = byte;
    out_put = next;
    ENABLE = CAN_RECEIVE | CAN_SEND;
}

static unsigned char digit(unsigned char letter)
{
    if (letter >= '0' && letter <= '9')
        return letter - '0';
    if (letter >= 'A' && letter <= 'F')
        return letter - 'A' + 10;
    return 0;
}

static unsigned int number(unsigned char digits)
{
    unsigned int n = 0;
    for (unsigned char i = 0; i < 4; i++)
        if (i < digits)
            n = n << 4 | digit(take());
    return n;
}

static void put_digit(unsigned char n)
{
    n &= 15;
    put(n < 10 ? n + '0' : n + 'A' - 10);
}

static void put_word(unsigned int n)
{
    put_digit(n >> 12);
    put_digit(n >> 8);
    put_digit(n >> 4);
    put_digit(n);
    put('\r');
    put('\n');
}

static unsigned int sum(void)
{
    unsigned int all = 0;
    for (unsigned int i = 0; i < 16; i++)
        all += words[i];
    return all;
}

static unsigned int greatest(void)
{
    unsigned int most = 0;
    for (unsigned int i = 0; i < 16; i++)
        if (most < words[i])
            most = words[i];
    return most;
}

static void obey(unsigned char command)
{
    unsigned int at;
    switch (command) {
    case 'W':
        at = number(1);
        words[at & 15] = number(4);
        break;
    case 'R':
        put_word(words[number(1) & 15]);
        break;
    case 'S':
        put_word(sum());
        break;
    case 'M':
        put_word(greatest());
        break;
    case 'C':
        for (unsigned int i = 0; i < 16; i++)
            words[i] = 0;
        break;
    case 'A':
        at = number(1);
        words[at & 15] += number(4);
        break;
    case 'D':
        for (unsigned int i = 0; i < 16; i++)
            put_word(words[i]);
        break;
    default:
        put('?');
    }
}

int main(void)
{
    WATCHDOG = WATCHDOG_OFF;
    in_put = in_taken = out_put = out_taken = 0;
    ENABLE = CAN_RECEIVE;
    __asm__ volatile("bis #8, sr");
    for (;;)
        obey(take());
}
