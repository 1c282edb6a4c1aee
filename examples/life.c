/* The Game of Life: reads a picture of # and other characters, and prints it three generations later. */
#include <stdio.h>

#define WIDE 20
#define HIGH 10

static char now[HIGH][WIDE], then[HIGH][WIDE];

static int alive(int y, int x)
{
    return y >= 0 && y < HIGH && x >= 0 && x < WIDE && now[y][x];
}

static int neighbours(int y, int x)
{
    int dy, dx, n = 0;

    for (dy = -1; dy <= 1; dy++)
        for (dx = -1; dx <= 1; dx++)
            if ((dy || dx) && alive(y + dy, x + dx))
                n++;
    return n;
}

static void step(void)
{
    int y, x;

    for (y = 0; y < HIGH; y++)
        for (x = 0; x < WIDE; x++) {
            int n = neighbours(y, x);

            then[y][x] = n == 3 || (n == 2 && now[y][x]);
        }
    for (y = 0; y < HIGH; y++)
        for (x = 0; x < WIDE; x++)
            now[y][x] = then[y][x];
}

static void read_picture(void)
{
    int y = 0, x = 0, c;

    while ((c = getchar()) != EOF && y < HIGH)
        if (c == '\n') {
            y++;
            x = 0;
        } else if (x < WIDE)
            now[y][x++] = c == '#';
}

int main(void)
{
    int y, x, generation;

    read_picture();
    for (generation = 0; generation < 3; generation++)
        step();
    for (y = 0; y < HIGH; y++) {
        for (x = 0; x < WIDE; x++)
            putchar(now[y][x] ? '#' : '.');
        putchar('\n');
    }
    return 0;
}
