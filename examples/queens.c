/* In how many ways n queens stand on a board of n by n, for the digit n that it reads. */
#include <stdio.h>

static int row_of[9];

static int is_free(int column, int row)
{
    int c;

    for (c = 0; c < column; c++) {
        int away = row_of[c] - row;

        if (away == 0 || away == column - c || away == c - column)
            return 0;
    }
    return 1;
}

static int ways(int column, int n)
{
    int row, found = 0;

    if (column == n)
        return 1;
    for (row = 0; row < n; row++)
        if (is_free(column, row)) {
            row_of[column] = row;
            found += ways(column + 1, n);
        }
    return found;
}

static void put_number(int n)
{
    if (n > 9)
        put_number(n / 10);
    putchar('0' + n % 10);
}

int main(void)
{
    int c = getchar();

    if (c < '1' || c > '8')
        return 1;
    put_number(ways(0, c - '0'));
    putchar('\n');
    return 0;
}
