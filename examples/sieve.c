/* The primes below a number that it reads, by the sieve of Eratosthenes. */
#include <stdio.h>

#define MOST 1000

static char crossed[MOST];

static void put_number(int n)
{
    if (n > 9)
        put_number(n / 10);
    putchar('0' + n % 10);
}

static int read_number(void)
{
    int n = 0, c;

    while ((c = getchar()) >= '0' && c <= '9')
        if (n < MOST)
            n = n * 10 + c - '0';
    return n < MOST ? n : MOST;
}

int main(void)
{
    int n = read_number();
    int i, k, found = 0;

    for (i = 2; i < n; i++) {
        if (crossed[i])
            continue;
        for (k = i * i; k < n; k += i)
            crossed[k] = 1;
        if (found++)
            putchar(' ');
        put_number(i);
    }
    putchar('\n');
    return found == 0;
}
