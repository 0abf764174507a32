#include <stdbool.h>
#include <stdint.h>

#define SETTLED 20

typedef enum { UP, FALLING, DOWN, RISING } State;

static State state;
static uint8_t ticks;

static void go(State next)
{
    state = next;
    ticks = 0;
}

/* Asked each millisecond with the level of the pin: true once for each press that lasts. */
bool is_pressed(bool level)
{
    ticks++;
    switch (state) {
    case UP:
        if (level)
            go(FALLING);
        return false;
    case FALLING:
        if (!level) {
            go(UP);
            return false;
        }
        if (ticks < SETTLED)
            return false;
        go(DOWN);
        return true;
    case DOWN:
        if (!level)
            go(RISING);
        return false;
    default:
        if (level)
            go(DOWN);
        else if (ticks >= SETTLED)
            go(UP);
        return false;
    }
}

bool is_down(void)
{
    return state == DOWN || state == RISING;
}
