/* A calculator: one expression a line, of numbers, + - * / and parentheses. */
#include <stdio.h>

static int ahead;           /* the character that was read and not used */
static int wrong;           /* what is wrong with this line, or 0 */

enum { NO_NUMBER = 1, NO_PAREN, ZERO, REST };

static int expression(void);

static void next(void)
{
    do
        ahead = getchar();
    while (ahead == ' ');
}

static void complain(int what)
{
    if (wrong == 0)
        wrong = what;
}

static int number(void)
{
    int n = 0;

    if (ahead < '0' || ahead > '9')
        complain(NO_NUMBER);
    while (ahead >= '0' && ahead <= '9') {
        n = n * 10 + (ahead - '0');
        ahead = getchar();
    }
    if (ahead == ' ')
        next();
    return n;
}

static int factor(void)
{
    int n;

    if (ahead == '-') {
        next();
        return -factor();
    }
    if (ahead != '(')
        return number();
    next();
    n = expression();
    if (ahead == ')')
        next();
    else
        complain(NO_PAREN);
    return n;
}

static int term(void)
{
    int n = factor();
    int by;

    while (ahead == '*' || ahead == '/')
        if (ahead == '*') {
            next();
            n *= factor();
        } else {
            next();
            by = factor();
            if (by == 0)
                complain(ZERO);
            else
                n /= by;
        }
    return n;
}

static int expression(void)
{
    int n = term();

    for (;;)
        switch (ahead) {
        case '+':
            next();
            n += term();
            break;
        case '-':
            next();
            n -= term();
            break;
        default:
            return n;
        }
}

static void put_text(const char *text)
{
    while (*text)
        putchar(*text++);
}

static void put_number(long n)
{
    if (n < 0) {
        putchar('-');
        n = -n;
    }
    if (n > 9)
        put_number(n / 10);
    putchar('0' + n % 10);
}

int main(void)
{
    int n;

    next();
    while (ahead != EOF) {
        wrong = 0;
        n = expression();
        if (ahead != '\n' && ahead != EOF)
            complain(REST);
        while (ahead != '\n' && ahead != EOF)
            next();
        switch (wrong) {
        case 0: put_number(n); break;
        case NO_NUMBER: put_text("a number is missing"); break;
        case NO_PAREN: put_text("a parenthesis is missing"); break;
        case ZERO: put_text("division by zero"); break;
        default: put_text("something stands behind it");
        }
        putchar('\n');
        if (ahead == '\n')
            next();
    }
    return 0;
}
