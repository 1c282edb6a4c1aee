/* Counts the lines, words and bytes of its input. */
#include <stdio.h>

static void put_number(int n)
{
    if (n > 9)
        put_number(n / 10);
    putchar('0' + n % 10);
}

int main(void)
{
    int c;
    int lines = 0, words = 0, bytes = 0;
    int inside = 0;

    while ((c = getchar()) != EOF) {
        bytes++;
        if (c == '\n')
            lines++;
        if (c == ' ' || c == '\t' || c == '\n')
            inside = 0;
        else if (!inside) {
            inside = 1;
            words++;
        }
    }
    put_number(lines);
    putchar(' ');
    put_number(words);
    putchar(' ');
    put_number(bytes);
    putchar('\n');
    return 0;
}
