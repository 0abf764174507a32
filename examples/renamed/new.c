#include <stdbool.h>
#include <stdint.h>

#define METER_WINDOW 8

/* The second version: names of the library begin with meter_. */
const uint32_t meter_steps[3] = {10, 100, 1000};

/* where the current tick is, and the pulses in each of the last METER_WINDOW ticks */
static uint8_t meter_now;
static uint16_t meter_buckets[METER_WINDOW];

void meter_clear(void)
{
    for (int i = 0; i < METER_WINDOW; i++)
        meter_buckets[i] = 0;
}

void meter_tick(void)
{
    meter_now = (meter_now + 1) % METER_WINDOW;
    meter_buckets[meter_now] = 0;
}

void meter_pulse(void)
{
    if (meter_buckets[meter_now] < UINT16_MAX)
        meter_buckets[meter_now]++;
}

/* pulses in the window */
uint32_t meter_rate(void)
{
    uint32_t sum = 0;
    for (int i = 0; i < METER_WINDOW; i++)
        sum += meter_buckets[i];
    return sum;
}

/* no pulse in the whole window */
bool meter_is_still(void)
{
    uint32_t pulses = meter_rate();
    return pulses == 0;
}

/* 0 to 3 */
int meter_level(void)
{
    uint32_t pulses = meter_rate();
    int i = 0;
    while (i < 3 && pulses >= meter_steps[i])
        i++;
    return i;
}
