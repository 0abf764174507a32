#include <stdint.h>
#include <stdbool.h>
#define SIZE 4
// run: ring 7
// run: counters 5
// run: constants 10
// run: checksum
// run: crc
// run: fnv
// run: lfsr 20
// run: leap 2000 1900 2024
// run: weekday 2026 12 1
// run: gray 10
// run: popcount 4042322160
// run: bit_reverse 1
// run: saturating 250 10
// run: sizes
// run: order
// run: shadow 3
// run: compound 10
// run: ternaries 5
// run: voids 3
typedef struct { uint8_t items[SIZE]; uint8_t head; uint8_t tail; } Ring;
static Ring ring_buffer;
static bool put(uint8_t b) { uint8_t next = (ring_buffer.head + 1) % SIZE; if (next == ring_buffer.tail) return false; ring_buffer.items[ring_buffer.head] = b; ring_buffer.head = next; return true; }
static bool take(uint8_t *out) { if (ring_buffer.head == ring_buffer.tail) return false; *out = ring_buffer.items[ring_buffer.tail]; ring_buffer.tail = (ring_buffer.tail + 1) % SIZE; return true; }
int ring(int n) { int s = 0; for (int i = 1; i <= n; i++) { if (!put(i)) { uint8_t x; if (take(&x)) s = s * 10 + x; put(i); } } return s * 100 + ring_buffer.head * 10 + ring_buffer.tail; }
int count = 3;
static int bump(void) { count += 2; return count; }
int counters(int n) { int s = 0; for (int i = 0; i < n; i++) s += bump(); return s * 100 + count; }
const int factor = 7;
const int table[3] = { 1, 10, 100 };
int constants(int x) { return x * factor + table[2]; }
const uint8_t message[9] = { '1', '2', '3', '4', '5', '6', '7', '8', '9' };
unsigned checksum(void) { unsigned a = 1, b = 0; for (int i = 0; i < 9; i++) { a = (a + message[i]) % 65521; b = (b + a) % 65521; } return b << 16 | a; }
uint32_t crc(void) { uint32_t c = 0xffffffff; for (int i = 0; i < 9; i++) { c ^= message[i]; for (int k = 0; k < 8; k++) c = c & 1 ? c >> 1 ^ 0xedb88320 : c >> 1; } return ~c; }
uint64_t fnv(void) { uint64_t h = 14695981039346656037u; for (int i = 0; i < 9; i++) { h ^= message[i]; h *= 1099511628211u; } return h; }
uint16_t lfsr(int n) { uint16_t s = 0xace1; while (n > 0) { uint16_t bit = (s ^ s >> 2 ^ s >> 3 ^ s >> 5) & 1; s = s >> 1 | bit << 15; n--; } return s; }
static int is_leap(int y) { return (y % 4 == 0 && y % 100 != 0) || y % 400 == 0; }
int leap(int a, int b, int c) { return is_leap(a) * 100 + is_leap(b) * 10 + is_leap(c); }
int weekday(int y, int m, int d) { const int t[12] = { 0, 3, 2, 5, 0, 3, 5, 1, 4, 6, 2, 4 }; if (m < 3) y -= 1; return (y + y / 4 - y / 100 + y / 400 + t[m - 1] + d) % 7; }
unsigned gray(unsigned n) { return n ^ n >> 1; }
int popcount(uint32_t x) { x = x - (x >> 1 & 0x55555555); x = (x & 0x33333333) + (x >> 2 & 0x33333333); return ((x + (x >> 4) & 0x0f0f0f0f) * 0x01010101) >> 24; }
uint32_t bit_reverse(uint32_t x) { uint32_t r = 0; for (int i = 0; i < 32; i++) { r = r << 1 | (x & 1); x >>= 1; } return r; }
uint8_t saturating(uint8_t a, uint8_t b) { uint8_t s = a + b; return s < a ? 255 : s; }
int sizes(void) { return sizeof(int) * 1000 + sizeof(long) * 100 + sizeof(short) * 10 + sizeof(char); }
int trace = 0;
static int mark(int n) { trace = trace * 10 + n; return n; }
int order(void) { int r = mark(1) + mark(2) * mark(3); return trace * 100 + r; }
int shadow(int x) { int r = x; { int x = 10; r += x; { int x = 100; r += x; } r += x; } return r + x; }
int compound(int x) { x += 3; x *= 2; x -= 1; x /= 3; x %= 5; x <<= 4; x >>= 1; x |= 3; x &= 29; x ^= 6; return x; }
int ternaries(int n) { return n < 3 ? 1 : n < 6 ? n == 5 ? 55 : 2 : 3; }
static int state;
static void set(int n) { if (n > 2) { state = n; return; } state = -n; }
int voids(int n) { set(n); return state; }
