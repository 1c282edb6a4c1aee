/* Takes the comments out of a C text: a state machine. */
#include <stdio.h>

enum state { CODE, SLASH, COMMENT, STAR, QUOTED, ESCAPED };

int main(void)
{
    enum state state = CODE;
    int c, quote = 0;

    while ((c = getchar()) != EOF)
        switch (state) {
        case CODE:
            if (c == '/') {
                state = SLASH;
                break;
            }
            if (c == '"' || c == '\'') {
                quote = c;
                state = QUOTED;
            }
            putchar(c);
            break;
        case SLASH:
            if (c == '*') {
                putchar(' ');
                state = COMMENT;
            } else {
                putchar('/');
                if (c != '/') {
                    putchar(c);
                    state = CODE;
                }
            }
            break;
        case COMMENT:
            if (c == '*')
                state = STAR;
            break;
        case STAR:
            if (c == '/')
                state = CODE;
            else if (c != '*')
                state = COMMENT;
            break;
        case QUOTED:
            putchar(c);
            if (c == '\\')
                state = ESCAPED;
            else if (c == quote)
                state = CODE;
            break;
        case ESCAPED:
            putchar(c);
            state = QUOTED;
            break;
        }
    if (state == SLASH)
        putchar('/');
    return state == COMMENT || state == STAR;
}
