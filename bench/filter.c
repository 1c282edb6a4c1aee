#include <stdio.h>

int is_blank(int c)
{
    return c == ' ' || c == '\t';
}

int main(void)
{
    int c, blanks = 0, lines = 0;
    while ((c = getchar()) != EOF) {
        if (is_blank(c)) {
            blanks++;
            continue;
        }
        if (blanks > 0) {
            putchar(' ');
            blanks = 0;
        }
        switch (c) {
        case '\n':
            lines++;
            putchar(c);
            break;
        case '(':
        case ')':
            putchar('|');
            break;
        default:
            if (c >= 'a' && c <= 'z')
                c = c - 'a' + 'A';
            putchar(c);
        }
    }
    return lines & 127;
}
