#include <stdint.h>
#include <stdbool.h>

#define SIZE 16

typedef struct {
    uint8_t buf[SIZE];
    uint8_t head;
    uint8_t tail;
} Queue;

static Queue q;

bool push(uint8_t b)
{
    uint8_t next = (q.head + 1) & 15;
    if (next == q.tail)
        return false;
    q.buf[q.head] = b;
    q.head = next;
    return true;
}

bool pop(uint8_t *out)
{
    if (q.head == q.tail)
        return false;
    *out = q.buf[q.tail];
    q.tail = (q.tail + 1) % SIZE;
    return true;
}

void reset(Queue *queue)
{
    queue->head = 0;
    queue->tail = 0;
}

int drained(void)
{
    int count = 0;
    uint8_t byte;
    while (pop(&byte))
        count++;
    return count;
}
