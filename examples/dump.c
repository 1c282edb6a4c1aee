/* A dump of its input: the offset, sixteen bytes in hexadecimal, and the same as characters. */
#include <stdio.h>

#define ROW 16

static void put_hex(unsigned long n, int digits)
{
    if (digits > 1)
        put_hex(n >> 4, digits - 1);
    putchar("0123456789abcdef"[n & 15]);
}

static void put_row(unsigned long offset, const unsigned char *row, int n)
{
    int i;

    put_hex(offset, 6);
    for (i = 0; i < ROW; i++) {
        putchar(' ');
        if (i < n)
            put_hex(row[i], 2);
        else
            putchar(' '), putchar(' ');
    }
    putchar(' ');
    for (i = 0; i < n; i++)
        putchar(row[i] >= ' ' && row[i] < 127 ? row[i] : '.');
    putchar('\n');
}

int main(void)
{
    unsigned char row[ROW];
    unsigned long offset = 0;
    int n = 0, c;

    while ((c = getchar()) != EOF) {
        row[n++] = c;
        if (n == ROW) {
            put_row(offset, row, n);
            offset += n;
            n = 0;
        }
    }
    if (n)
        put_row(offset, row, n);
    return 0;
}
