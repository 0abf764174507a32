/* Sums and products in brackets, read by functions that call each other. */
#include <stdint.h>

#define MOST 32

enum kind { END, NUMBER, PLUS, MINUS, TIMES, OPEN, CLOSE };

struct token {
    uint8_t kind;
    int32_t value;
};

static struct token tokens[MOST];
static int at;

static int32_t factor(void);
static int32_t product(void);
int32_t sum(void);
static int depth_of_rest(int open);

static int32_t factor(void)
{
    int32_t value;
    if (tokens[at].kind == MINUS) {
        at++;
        return -factor();
    }
    if (tokens[at].kind == OPEN) {
        at++;
        value = sum();
        at++;
        return value;
    }
    value = tokens[at].value;
    at++;
    return value;
}

static int32_t product(void)
{
    int32_t value = factor();
    while (tokens[at].kind == TIMES) {
        at++;
        value *= factor();
    }
    return value;
}

int32_t sum(void)
{
    int32_t value = product();
    while (tokens[at].kind == PLUS || tokens[at].kind == MINUS) {
        uint8_t kind = tokens[at].kind;
        at++;
        if (kind == PLUS)
            value += product();
        else
            value -= product();
    }
    return value;
}

static int larger(int a, int b)
{
    return a > b ? a : b;
}

/* how deep brackets nest from here on, where so many are open */
int depth(int open)
{
    switch (tokens[at].kind) {
    case END:
        return open;
    case OPEN:
        return depth_of_rest(open + 1);
    case CLOSE:
        return larger(open, depth_of_rest(open - 1));
    default:
        return depth_of_rest(open);
    }
}

static int depth_of_rest(int open)
{
    at++;
    return depth(open);
}

static void put(int place, uint8_t kind, int32_t value)
{
    tokens[place].kind = kind;
    tokens[place].value = value;
}

/* 2 * (n + -3) - 4 */
int32_t example(int32_t n)
{
    at = 0;
    put(0, NUMBER, 2);
    put(1, TIMES, 0);
    put(2, OPEN, 0);
    put(3, NUMBER, n);
    put(4, PLUS, 0);
    put(5, MINUS, 0);
    put(6, NUMBER, 3);
    put(7, CLOSE, 0);
    put(8, MINUS, 0);
    put(9, NUMBER, 4);
    put(10, END, 0);
    return sum();
}
