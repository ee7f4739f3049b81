/* Records come from the port, are sorted by one of four comparisons, which is called through a pointer, and go back to it. */
#include "../c/chip.h"

#define COUNT 32

struct record {
    unsigned int key;
    unsigned char kind;
    unsigned char place;
};

typedef int comparison(const struct record *, const struct record *);

static struct record records[COUNT];
static unsigned char from[16], to[16];

static int by_key(const struct record *a, const struct record *b)
{
    return a->key < b->key ? -1 : a->key > b->key;
}

static int by_key_downward(const struct record *a, const struct record *b)
{
    return by_key(b, a);
}

static int by_kind(const struct record *a, const struct record *b)
{
    return a->kind != b->kind ? (int)a->kind - (int)b->kind : by_key(a, b);
}

static int by_place(const struct record *a, const struct record *b)
{
    return (int)a->place - (int)b->place;
}

static comparison *const comparisons[4] = {by_key, by_key_downward, by_kind, by_place};

static void swap(unsigned char i, unsigned char k)
{
    struct record held = records[i & (COUNT - 1)];
    records[i & (COUNT - 1)] = records[k & (COUNT - 1)];
    records[k & (COUNT - 1)] = held;
}

static unsigned char part(unsigned char first, unsigned char last, comparison *compare)
{
    unsigned char end = first;
    swap((first + last) >> 1, last);
    for (unsigned char i = first; i < last; i++) {
        if (compare(&records[i & (COUNT - 1)], &records[last & (COUNT - 1)]) < 0) {
            swap(i, end);
            end++;
        }
    }
    swap(end, last);
    return end;
}

/* The parts that wait stand in two lists, so that the stack has a bound. */
static void sort(comparison *compare)
{
    unsigned char waiting = 1;
    from[0] = 0;
    to[0] = COUNT - 1;
    while (waiting > 0) {
        waiting--;
        unsigned char first = from[waiting & 15], last = to[waiting & 15];
        if (first >= last)
            continue;
        unsigned char middle = part(first, last, compare);
        if (middle > first) {
            from[waiting & 15] = first;
            to[waiting & 15] = middle - 1;
            waiting++;
        }
        from[waiting & 15] = middle + 1;
        to[waiting & 15] = last;
        waiting++;
    }
}

static unsigned char find(unsigned int key)
{
    unsigned char low = 0, high = COUNT;
    while (low < high) {
        unsigned char middle = (low + high) >> 1;
        if (records[middle & (COUNT - 1)].key < key)
            low = middle + 1;
        else
            high = middle;
    }
    return low;
}

int main(void)
{
    WATCHDOG = WATCHDOG_OFF;
    PORT_DIRECTION = 0xFF;
    for (;;) {
        for (unsigned int i = 0; i < COUNT; i++) {
            records[i].key = PORT_IN | PORT_IN << 8;
            records[i].kind = PORT_IN & 3;
            records[i].place = i;
        }
        sort(comparisons[PORT_IN & 3]);
        for (unsigned int i = 0; i < COUNT; i++) {
            PORT_OUT = records[i].key;
            PORT_OUT = records[i].key >> 8;
        }
        PORT_OUT = find(PORT_IN);
    }
}
