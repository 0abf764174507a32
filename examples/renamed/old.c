#include <stdbool.h>
#include <stdint.h>

#define WINDOW 8

/* pulses in each of the last WINDOW ticks, and where the current tick is */
static uint16_t buckets[WINDOW];
static uint8_t now;

const uint32_t steps[3] = {10, 100, 1000};

void tick(void)
{
    now = (now + 1) % WINDOW;
    buckets[now] = 0;
}

void pulse(void)
{
    if (buckets[now] < UINT16_MAX)
        buckets[now]++;
}

/* pulses in the window */
uint32_t rate(void)
{
    uint32_t sum = 0;
    for (int i = 0; i < WINDOW; i++)
        sum += buckets[i];
    return sum;
}

/* 0 to 3 */
int level(void)
{
    uint32_t pulses = rate();
    int i = 0;
    while (i < 3 && pulses >= steps[i])
        i++;
    return i;
}

bool is_still(void)
{
    return rate() == 0;
}
