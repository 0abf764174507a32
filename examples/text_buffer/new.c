#include <stdint.h>

#define SIZE 16

static uint8_t text[SIZE];

// the place of the first such byte, or SIZE
uint32_t find(uint8_t byte)
{
    uint32_t i = 0;
    while (i < SIZE && text[i] != byte) i++;
    return i;
}

// how many pairs of equal bytes there are
uint32_t equal_pairs(void)
{
    uint32_t count = 0;
    for (uint32_t i = 0; i < SIZE; i++)
        for (uint32_t j = i + 1; j < SIZE; j++)
            if (text[i] == text[j]) count++;
    return count;
}

// n places to the left: SIZE of them change nothing
void rotate(uint32_t n)
{
    n %= SIZE;
    while (n > 0) {
        uint8_t first = text[0];
        uint32_t i = 0;
        do {
            text[i] = text[i + 1];
            i++;
        } while (i < SIZE - 1);
        text[i] = first;
        n--;
    }
}

void fill(int kind, uint8_t byte)
{
    for (uint32_t i = 0; i < SIZE; i++)
        text[i] = kind == 0 ? 0 : kind == 1 ? byte : text[i] + byte;
}

int sum(unsigned from)
{
    int s = 0;
    for (; from < SIZE; from++) s += text[from];
    while (s > 255) s -= 255;
    return s;
}

int has(uint8_t byte)
{
    for (int i = 0; i < SIZE; i++)
        if (text[i] == byte) return 1;
    return 0;
}
