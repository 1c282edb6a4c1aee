#include <stdio.h>

/* Reads a pupil's marks, digits on a line. With d the worst mark doesn't count; with m the mean is wanted, else how many count. */
int main(void)
{
    int c, drop = 0, mean = 0, sum = 0, count = 0, worst = 9;

    while ((c = getchar()) >= ' ') {
        if (c == 'd')
            drop = 1;
        else if (c == 'm')
            mean = 1;
        else {
            sum = sum + (c - '0');
            count = count + 1;
            if (c - '0' < worst)
                worst = c - '0';
        }
    }
    if (drop)
        count = count - 1;
    if (mean)
        putchar('0' + sum / count);
    else
        putchar('0' + count);
    putchar('\n');
    return 0;
}
