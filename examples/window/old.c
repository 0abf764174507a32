#include <stdint.h>

#define READINGS 8

static int32_t window[READINGS];

/* puts a reading in place of the oldest */
void put(uint32_t number, int32_t reading)
{
    window[number % READINGS] = reading;
}

int32_t highest(void)
{
    int32_t best = window[0];
    for (int i = 1; i < READINGS; i++)
        if (window[i] > best)
            best = window[i];
    return best;
}

int32_t mean(void)
{
    int64_t sum = 0;
    int i = 0;
    while (i < READINGS) {
        sum += window[i];
        i++;
    }
    return (int32_t)(sum / READINGS);
}
