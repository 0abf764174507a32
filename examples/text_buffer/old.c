#include <stdint.h>

#define SIZE 16

static uint8_t text[SIZE];

/* the place of the first such byte, or SIZE */
uint32_t find(uint8_t byte)
{
    uint32_t i = 0;
    while (i < SIZE && text[i] != byte)
        i++;
    return i;
}

/* how many pairs of equal bytes there are */
uint32_t equal_pairs(void)
{
    uint32_t count = 0;
    for (uint32_t i = 0; i < SIZE; i++)
        for (uint32_t j = i + 1; j < SIZE; j++)
            if (text[i] == text[j])
                count++;
    return count;
}

/* n places to the left */
void rotate(uint32_t n)
{
    while (n > 0) {
        uint8_t first = text[0];
        uint32_t i = 0;
        do {
            text[i] = text[i + 1];
            i++;
        } while (i < SIZE - 1);
        text[i] = first;
        n--;
    }
}

void fill(int kind, uint8_t byte)
{
    switch (kind) {
    case 0:
        for (uint32_t i = 0; i < SIZE; i++)
            text[i] = 0;
        break;
    case 1:
        for (uint32_t i = 0; i < SIZE; i++)
            text[i] = byte;
        break;
    default:
        for (uint32_t i = 0; i < SIZE; i++)
            text[i] += byte;
    }
}

int sum(int from)
{
    int s = 0;
    for (; from < SIZE; from++)
        s += text[from];
    while (s > 255)
        s -= 255;
    return s;
}

int is_blank(void)
{
    for (int i = 0; i < SIZE; i++)
        if (text[i] != ' ')
            return 0;
    return 1;
}
