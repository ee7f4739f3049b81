/* Prints lines by formats: numbers in decimal and hexadecimal, with and without sign, filled up to a width, letters and texts. */
#include "../c/chip.h"

static void put(unsigned char letter)
{
    while (!(PORT_IN & 1))
        ;
    PORT_OUT = letter;
}

static char digits[8];

static void print_number(unsigned int n, unsigned int base, unsigned char width, char fill)
{
    unsigned char count = 0;
    do {
        unsigned char digit = n % base;
        unsigned char at = count;
        /* (hides what is known of the place, so that the mask stays) */
        __asm__("" : "+r"(at));
        digits[at & 7] = digit < 10 ? '0' + digit : 'a' + digit - 10;
        count++;
        n /= base;
    } while (n != 0 && count < 8);
    while (width > count) {
        put(fill);
        width--;
    }
    while (count > 0) {
        count--;
        put(digits[count & 7]);
    }
}

static void print_text(const char *text)
{
    for (unsigned int i = 0; text[i]; i++)
        put(text[i]);
}

struct argument {
    unsigned int number;
    const char *text;
};

static void print(const char *format, const struct argument *arguments)
{
    unsigned char at = 0;
    for (unsigned int i = 0; format[i]; i++) {
        if (format[i] != '%') {
            put(format[i]);
            continue;
        }
        char fill = ' ';
        unsigned char width = 0;
        i++;
        if (format[i] == '0') {
            fill = '0';
            i++;
        }
        while (format[i] >= '0' && format[i] <= '9') {
            width = 10 * width + (format[i] - '0');
            i++;
        }
        const struct argument *argument = &arguments[at & 3];
        switch (format[i]) {
        case 'd':
            if ((int)argument->number < 0) {
                put('-');
                print_number(-argument->number, 10, width, fill);
            } else {
                print_number(argument->number, 10, width, fill);
            }
            break;
        case 'u':
            print_number(argument->number, 10, width, fill);
            break;
        case 'x':
            print_number(argument->number, 16, width, fill);
            break;
        case 'o':
            print_number(argument->number, 8, width, fill);
            break;
        case 'c':
            put(argument->number);
            break;
        case 's':
            print_text(argument->text);
            break;
        case 0:
            return;
        default:
            put(format[i]);
        }
        at++;
    }
}

static const char *const names[4] = {"cold", "mild", "warm", "hot"};

int main(void)
{
    struct argument arguments[4];
    WATCHDOG = WATCHDOG_OFF;
    PORT_DIRECTION = 0xFF;
    for (unsigned int line = 0;; line++) {
        unsigned int value = PORT_IN | PORT_IN << 8;
        arguments[0].number = line;
        arguments[1].number = value;
        arguments[2].text = names[value >> 14];
        arguments[3].number = value;
        print("%4u: %d %s\r\n", arguments);
        print("[%04x] %o %s %c\r\n", arguments);
    }
}
