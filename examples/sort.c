/* Reads names with a number each, and prints them by number, and by name where the numbers are equal. */
#include <stdio.h>
#include <stdlib.h>

#define ROWS 100
#define LETTERS 16

struct row {
    char name[LETTERS];
    int number;
    struct row *next;
};

static struct row rows[ROWS];
static int used;
static int ahead;

static int is_blank(int c)
{
    return c == ' ' || c == '\n';
}

static void skip(void)
{
    while (is_blank(ahead))
        ahead = getchar();
}

static void read_row(struct row *r)
{
    char *end = r->name;
    int sign = 1;

    while (ahead != EOF && !is_blank(ahead)) {
        if (end - r->name < LETTERS - 1)
            *end++ = ahead;
        ahead = getchar();
    }
    *end = '\0';
    skip();
    if (ahead == '-') {
        sign = -1;
        ahead = getchar();
    }
    if (ahead < '0' || ahead > '9')
        exit(1);
    r->number = 0;
    for (; ahead >= '0' && ahead <= '9'; ahead = getchar())
        r->number = r->number * 10 + (ahead - '0');
    r->number *= sign;
    skip();
}

static int by_name(const char *a, const char *b)
{
    while (*a && *a == *b)
        a++, b++;
    return *a - *b;
}

static int comes_before(struct row *a, struct row *b)
{
    if (a->number != b->number)
        return a->number < b->number;
    return by_name(a->name, b->name) < 0;
}

/* The list with one row more, at its place. */
static struct row *inserted(struct row *list, struct row *r)
{
    struct row **at = &list;

    while (*at && !comes_before(r, *at))
        at = &(*at)->next;
    r->next = *at;
    *at = r;
    return list;
}

static void put_number(int n)
{
    if (n < 0) {
        putchar('-');
        n = -n;
    }
    if (n > 9)
        put_number(n / 10);
    putchar('0' + n % 10);
}

int main(void)
{
    struct row *list = 0, *r;
    char *c;

    ahead = getchar();
    skip();
    while (ahead != EOF && used < ROWS) {
        read_row(&rows[used]);
        list = inserted(list, &rows[used]);
        used++;
    }
    for (r = list; r; r = r->next) {
        put_number(r->number);
        putchar(' ');
        for (c = r->name; *c; c++)
            putchar(*c);
        putchar('\n');
    }
    return 0;
}
