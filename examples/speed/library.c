/* What the compiler calls where the chip has no instruction: products, quotients and shifts. The names and the registers are those
   of the MSP430's ABI. */

unsigned int __mspabi_mpyi(unsigned int a, unsigned int b)
{
    unsigned int product = 0;
    for (unsigned int i = 0; i < 16; i++) {
        if (b & 1)
            product += a;
        a <<= 1;
        b >>= 1;
    }
    return product;
}

unsigned long __mspabi_mpyl(unsigned long a, unsigned long b)
{
    unsigned long product = 0;
    for (unsigned int i = 0; i < 32; i++) {
        if (b & 1)
            product += a;
        a <<= 1;
        b >>= 1;
    }
    return product;
}

static unsigned int divided(unsigned int n, unsigned int by, unsigned int *rest)
{
    unsigned int quotient = 0, left = 0;
    for (unsigned int i = 0; i < 16; i++) {
        left = left << 1 | n >> 15;
        n <<= 1;
        quotient <<= 1;
        if (left >= by) {
            left -= by;
            quotient |= 1;
        }
    }
    *rest = left;
    return quotient;
}

unsigned int __mspabi_divu(unsigned int n, unsigned int by)
{
    unsigned int rest;
    return divided(n, by, &rest);
}

unsigned int __mspabi_remu(unsigned int n, unsigned int by)
{
    unsigned int rest;
    divided(n, by, &rest);
    return rest;
}

int __mspabi_divi(int n, int by)
{
    unsigned int rest;
    unsigned int quotient = divided(n < 0 ? -(unsigned int)n : (unsigned int)n, by < 0 ? -(unsigned int)by : (unsigned int)by, &rest);
    return (n < 0) != (by < 0) ? -quotient : quotient;
}

unsigned int __mspabi_slli(unsigned int n, unsigned int by)
{
    for (by &= 15; by != 0; by--)
        n <<= 1;
    return n;
}

unsigned int __mspabi_srli(unsigned int n, unsigned int by)
{
    for (by &= 15; by != 0; by--)
        n >>= 1;
    return n;
}

int __mspabi_srai(int n, unsigned int by)
{
    for (by &= 15; by != 0; by--)
        n >>= 1;
    return n;
}

unsigned long __mspabi_slll(unsigned long n, unsigned int by)
{
    for (by &= 31; by != 0; by--)
        n <<= 1;
    return n;
}

unsigned long __mspabi_srll(unsigned long n, unsigned int by)
{
    for (by &= 31; by != 0; by--)
        n >>= 1;
    return n;
}

long __mspabi_sral(long n, unsigned int by)
{
    for (by &= 31; by != 0; by--)
        n >>= 1;
    return n;
}
