/* SHA-256 of what comes from the port, in blocks of 64 bytes. */
#include "../c/chip.h"

typedef unsigned long word;

static const word constants[64] = {
    0x428a2f98, 0x71374491, 0xb5c0fbcf, 0xe9b5dba5, 0x3956c25b, 0x59f111f1, 0x923f82a4, 0xab1c5ed5,
    0xd807aa98, 0x12835b01, 0x243185be, 0x550c7dc3, 0x72be5d74, 0x80deb1fe, 0x9bdc06a7, 0xc19bf174,
    0xe49b69c1, 0xefbe4786, 0x0fc19dc6, 0x240ca1cc, 0x2de92c6f, 0x4a7484aa, 0x5cb0a9dc, 0x76f988da,
    0x983e5152, 0xa831c66d, 0xb00327c8, 0xbf597fc7, 0xc6e00bf3, 0xd5a79147, 0x06ca6351, 0x14292967,
    0x27b70a85, 0x2e1b2138, 0x4d2c6dfc, 0x53380d13, 0x650a7354, 0x766a0abb, 0x81c2c92e, 0x92722c85,
    0xa2bfe8a1, 0xa81a664b, 0xc24b8b70, 0xc76c51a3, 0xd192e819, 0xd6990624, 0xf40e3585, 0x106aa070,
    0x19a4c116, 0x1e376c08, 0x2748774c, 0x34b0bcb5, 0x391c0cb3, 0x4ed8aa4a, 0x5b9cca4f, 0x682e6ff3,
    0x748f82ee, 0x78a5636f, 0x84c87814, 0x8cc70208, 0x90befffa, 0xa4506ceb, 0xbef9a3f7, 0xc67178f2};

static word sums[8];
static word schedule[16];
static unsigned char block[64];

static word turned(word x, unsigned int by)
{
    return x >> by | x << (32 - by);
}

static word spread(unsigned int i)
{
    word a = schedule[(i + 1) & 15], b = schedule[(i + 14) & 15];
    word s = turned(a, 7) ^ turned(a, 18) ^ a >> 3;
    word t = turned(b, 17) ^ turned(b, 19) ^ b >> 10;
    return schedule[i & 15] += s + t + schedule[(i + 9) & 15];
}

static void compress(void)
{
    word a = sums[0], b = sums[1], c = sums[2], d = sums[3], e = sums[4], f = sums[5], g = sums[6], h = sums[7];
    for (unsigned int i = 0; i < 16; i++)
        schedule[i] = (word)block[4 * i] << 24 | (word)block[4 * i + 1] << 16 | (word)block[4 * i + 2] << 8 | block[4 * i + 3];
    for (unsigned int i = 0; i < 64; i++) {
        word w = i < 16 ? schedule[i & 15] : spread(i);
        word one = h + (turned(e, 6) ^ turned(e, 11) ^ turned(e, 25)) + ((e & f) ^ (~e & g)) + constants[i] + w;
        word two = (turned(a, 2) ^ turned(a, 13) ^ turned(a, 22)) + ((a & b) ^ (a & c) ^ (b & c));
        h = g;
        g = f;
        f = e;
        e = d + one;
        d = c;
        c = b;
        b = a;
        a = one + two;
    }
    sums[0] += a;
    sums[1] += b;
    sums[2] += c;
    sums[3] += d;
    sums[4] += e;
    sums[5] += f;
    sums[6] += g;
    sums[7] += h;
}

static void begin(void)
{
    sums[0] = 0x6a09e667;
    sums[1] = 0xbb67ae85;
    sums[2] = 0x3c6ef372;
    sums[3] = 0xa54ff53a;
    sums[4] = 0x510e527f;
    sums[5] = 0x9b05688c;
    sums[6] = 0x1f83d9ab;
    sums[7] = 0x5be0cd19;
}

int main(void)
{
    WATCHDOG = WATCHDOG_OFF;
    PORT_DIRECTION = 0xFF;
    for (;;) {
        begin();
        do {
            for (unsigned int i = 0; i < 64; i++)
                block[i] = PORT_IN;
            compress();
        } while (PORT_IN & 1);
        for (unsigned int i = 0; i < 8; i++) {
            PORT_OUT = sums[i] >> 24;
            PORT_OUT = sums[i] >> 16;
            PORT_OUT = sums[i] >> 8;
            PORT_OUT = sums[i];
        }
    }
}
