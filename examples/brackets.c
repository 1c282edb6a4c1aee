/* Says whether the brackets of its input match, and where they first don't. */
#include <stdio.h>

#define DEEP 64

static char stack[DEEP];
static int depth;

static char closing(char c)
{
    switch (c) {
    case '(': return ')';
    case '[': return ']';
    case '{': return '}';
    }
    return 0;
}

static int is_closing(char c)
{
    return c == ')' || c == ']' || c == '}';
}

static void say(const char *text)
{
    for (; *text; text++)
        putchar(*text);
}

static void put_number(unsigned n)
{
    if (n > 9)
        put_number(n / 10);
    putchar('0' + n % 10);
}

int main(void)
{
    int c;
    unsigned line = 1;

    while ((c = getchar()) != EOF) {
        if (c == '\n')
            line++;
        if (closing(c)) {
            if (depth == DEEP) {
                say("too deep in line ");
                put_number(line);
                putchar('\n');
                return 2;
            }
            stack[depth++] = closing(c);
        } else if (is_closing(c) && (depth == 0 || stack[--depth] != c)) {
            say("wrong in line ");
            put_number(line);
            putchar('\n');
            return 1;
        }
    }
    say(depth ? "open at the end\n" : "fine\n");
    return depth != 0;
}
