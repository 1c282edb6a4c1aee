/* Reads jobs, a letter and a digit each, and prints their letters by rising digit: a heap of structures, moved by assignment. */
#include <stdio.h>

#define MOST 64

struct moment {
    int digit;
    long turn;
};

struct job {
    char letter;
    struct moment due;
};

struct heap {
    struct job jobs[MOST];
    int used;
};

static struct heap heap;

/* the one that came first goes first, where the digits are equal */
static int is_before(struct job *a, struct job *b)
{
    if (a->due.digit != b->due.digit)
        return a->due.digit < b->due.digit;
    return a->due.turn < b->due.turn;
}

static void swap(struct job *a, struct job *b)
{
    struct job kept;

    kept = *a;
    *a = *b;
    *b = kept;
}

static int put(struct job *new)
{
    int at, up;

    if (heap.used == MOST)
        return 0;
    at = heap.used++;
    heap.jobs[at] = *new;
    while (at > 0) {
        up = (at - 1) / 2;
        if (!is_before(&heap.jobs[at], &heap.jobs[up]))
            break;
        swap(&heap.jobs[at], &heap.jobs[up]);
        at = up;
    }
    return 1;
}

static void take(struct job *first)
{
    int at = 0, down;

    *first = heap.jobs[0];
    heap.jobs[0] = heap.jobs[--heap.used];
    while ((down = 2 * at + 1) < heap.used) {
        if (down + 1 < heap.used && is_before(&heap.jobs[down + 1], &heap.jobs[down]))
            down++;
        if (!is_before(&heap.jobs[down], &heap.jobs[at]))
            break;
        swap(&heap.jobs[at], &heap.jobs[down]);
        at = down;
    }
}

int main(void)
{
    struct job next, last;
    int c, digit, given = 0;
    long turn = 0;

    while ((c = getchar()) != EOF) {
        if (c == ' ' || c == '\n')
            continue;
        digit = getchar();
        if (digit < '0' || digit > '9')
            return 1;
        next.letter = c;
        next.due.digit = digit - '0';
        next.due.turn = turn++;
        if (!put(&next))
            return 2;
    }
    while (heap.used > 0) {
        take(&next);
        if (given > 0 && is_before(&next, &last))
            return 3;
        putchar(next.letter);
        last = next;
        given++;
    }
    putchar('\n');
    return 0;
}
