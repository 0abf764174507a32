// Frames on a serial line: START, LENGTH, that many bytes (none, too), and the low byte of their sum.
#include <stdbool.h>
#include <stdint.h>

#define START 0x7e
#define MOST 16

enum phase { WAITING, LENGTH, PAYLOAD, CHECK };
enum result { MORE = 0, FRAME = 1, BROKEN = 2 };

struct decoder {
    uint8_t phase;
    uint8_t length;
    uint8_t received;
    uint8_t sum;
};

static struct decoder decoder;
static uint8_t payload[MOST];

static void begin(uint8_t length)
{
    decoder.phase = PAYLOAD;
    decoder.length = length;
    decoder.received = 0;
    decoder.sum = 0;
}

// a length that no frame has
static int give_up(void)
{
    decoder.phase = WAITING;
    return BROKEN;
}

int take(uint8_t byte)
{
    switch (decoder.phase) {
    case WAITING:
        if (byte == START)
            decoder.phase = LENGTH;
        return MORE;
    case LENGTH:
        if (byte > MOST)
            return give_up();
        begin(byte);
        if (byte == 0)
            decoder.phase = CHECK;
        return MORE;
    case PAYLOAD:
        payload[decoder.received] = byte;
        decoder.sum += byte;
        decoder.received++;
        if (decoder.received == decoder.length)
            decoder.phase = CHECK;
        return MORE;
    default:
        decoder.phase = WAITING;
        return byte == decoder.sum ? FRAME : BROKEN;
    }
}

/* how many whole frames these bytes end */
int feed(const uint8_t *bytes, uint16_t count)
{
    int frames = 0;
    for (uint16_t i = 0; i < count; i++) if (take(bytes[i]) == FRAME) frames++;
    return frames;
}

bool is_idle(void)
{
    return decoder.phase == WAITING;
}

const uint8_t line[9] = { 0, START, 3, 'a', 'b', 'c', 0x26, START, 17 };

int self_test(void)
{
    return feed(line, 9) == 1 && payload[2] == 'c' && is_idle();
}
