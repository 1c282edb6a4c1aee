/* Writes each number that it reads, from 1 to 3999, in Roman numerals. */
#include <stdio.h>

static int values[] = { 1000, 900, 500, 400, 100, 90, 50, 40, 10, 9, 5, 4, 1 };
static char *letters[] = { "M", "CM", "D", "CD", "C", "XC", "L", "XL", "X", "IX", "V", "IV", "I" };

static void put_roman(int n)
{
    int i = 0;
    char *c;

    if (n < 1 || n > 3999) {
        putchar('?');
        return;
    }
    while (n > 0)
        if (n >= values[i]) {
            for (c = letters[i]; *c; c++)
                putchar(*c);
            n -= values[i];
        } else
            i++;
}

int main(void)
{
    int c = getchar();

    while (c != EOF) {
        int n = 0;

        while (c >= '0' && c <= '9') {
            if (n < 10000)
                n = n * 10 + (c - '0');
            c = getchar();
        }
        put_roman(n);
        putchar('\n');
        while (c == ' ' || c == '\n')
            c = getchar();
        if (c != EOF && (c < '0' || c > '9'))
            return 1;
    }
    return 0;
}
