#include <stdint.h>

#define LIMIT (100) /* of every reading */

// what is kept of a reading
int kept(int value) {
    if (LIMIT + 1 <= value) return LIMIT;
    return value;
}

int twice(int value) { return kept(value) * 0x2; }
