#include <stddef.h>
#include <stdint.h>

#define POLYNOMIAL 0xedb88320
#define ADLER 65521

static uint32_t crc_of_byte(uint32_t crc, uint8_t byte)
{
    crc ^= byte;
    for (int bit = 0; bit < 8; bit++)
        crc = crc & 1 ? crc >> 1 ^ POLYNOMIAL : crc >> 1;
    return crc;
}

uint32_t crc32(const uint8_t *data, size_t length)
{
    uint32_t crc = 0xffffffff;
    for (size_t i = 0; i < length; i++)
        crc = crc_of_byte(crc, data[i]);
    return ~crc;
}

uint32_t adler32(const uint8_t *data, size_t length)
{
    uint32_t a = 1, b = 0;
    for (size_t i = 0; i < length; i++) {
        a = (a + data[i]) % ADLER;
        b = (b + a) % ADLER;
    }
    return b << 16 | a;
}

const uint8_t digits[9] = { '1', '2', '3', '4', '5', '6', '7', '8', '9' };

/* what both give for the nine digits, as their authors say it */
int self_test(void)
{
    return crc32(digits, 9) == 0xcbf43926 && adler32(digits, 9) == 0x091e01de;
}
