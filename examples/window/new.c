#include <stdint.h>

static int window[8];

int32_t mean(void)
{
    int64_t sum = 0;
    int i = 0;
    while (i < 8) {
        sum += window[i];
        i++;
    }
    return (int32_t)(sum >> 3); // rounds down, where the old one rounds toward zero
}

void put(unsigned number, int reading) { window[number % 8] = reading; }

int highest(void)
{
    int most = window[0];
    for (int place = 1; place < 8; place++)
        if (window[place] > most) most = window[place];
    return most;
}
