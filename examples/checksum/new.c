#include <stddef.h>
#include <stdint.h>

#define ADLER 65521

// one byte more, its lowest bit first
static uint32_t crc_of_byte(uint32_t crc, uint8_t byte)
{
    crc ^= byte;
    for (int bit = 0; bit < 8; bit++)
        crc = (crc & 1) ? (crc >> 1) ^ 0xEDB88320u : (crc >> 1);
    return crc;
}

// the check sum of zlib, without a division
uint32_t adler32(const uint8_t *data, size_t length)
{
    uint32_t a = 1, b = 0;
    for (size_t i = 0; i < length; i++) {
        a += data[i];
        if (a >= ADLER)
            a -= ADLER;
        b += a;
        if (b >= ADLER)
            b -= ADLER;
    }
    return (b << 16) | a;
}

uint32_t crc32(const uint8_t *data, size_t length)
{
    uint32_t crc = 0xFFFFFFFF;
    for (size_t i = 0; i < length; i++)
        crc = crc_of_byte(crc, data[i]);
    return ~crc;
}

const uint8_t digits[] = { 49, 50, 51, 52, 53, 54, 55, 56, 57 };

int self_test(void)
{
    return crc32(digits, 9) == 0xcbf43926 && adler32(digits, 9) == 0x091e01de;
}
