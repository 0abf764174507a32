#include <stdbool.h>
#include <stdint.h>

enum state { UP, FALLING, DOWN, RISING };

static enum state state;
static uint8_t ticks;

static void go(enum state next)
{
    state = next;
    ticks = 0;
}

/* Asked each millisecond with the level of the pin: true once for each press that lasts 20 of them. */
bool is_pressed(bool level)
{
    ticks++;
    switch (state) {
    case UP:
        if (level)
            go(FALLING);
        return false;
    case FALLING:
        if (!level) {
            go(UP);
            return false;
        }
        if (ticks < 20)
            return false;
        go(DOWN);
        return true;
    case DOWN:
        if (!level)
            go(RISING);
        return false;
    default:
        if (level)
            go(DOWN);
        else if (ticks >= 20)
            go(UP);
        return false;
    }
}

bool is_down(void)
{
    switch (state) {
    case DOWN:
    case RISING:
        return true;
    }
    return false;
}
