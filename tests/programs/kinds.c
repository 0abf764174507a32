#include <stdint.h>
#include <stdbool.h>
// run: to_char 300
// run: to_char 200
// run: to_short -- -40000
// run: to_bool 256
// run: promote 255 255
// run: unsigned_wrap 3
// run: long_product 4000000000 4000000000
// run: long_less -- -1
// run: big 18446744073709551615
// run: shift_long 40
// run: char_sum 100 100
// run: bool_add 1 1
// run: limits
// run: literal
// run: char_literals
// run: compare_kinds 5
// run: narrow 70000
int to_char(int a) { signed char c = a; return c; }
int to_short(int a) { short s = a; return s; }
int to_bool(int a) { _Bool b = a; return b; }
int promote(unsigned char a, unsigned char b) { return a + b; }
unsigned unsigned_wrap(unsigned a) { return a - 5; }
uint64_t long_product(uint64_t a, uint64_t b) { return a * b; }
int long_less(long a) { return a < 1u; }
uint64_t big(uint64_t a) { return a / 3; }
uint64_t shift_long(unsigned n) { return (uint64_t) 1 << n; }
signed char char_sum(signed char a, signed char b) { return a + b; }
bool bool_add(bool a, bool b) { return a + b; }
int64_t limits(void) { return INT8_MIN + INT16_MAX + INT32_MIN + UINT8_MAX + (int64_t) UINT32_MAX; }
int64_t literal(void) { return 0x7fffffff + 0xffffffff + 017 + 10L + 3000000000; }
int char_literals(void) { return 'a' * 1000 + '\n' + '\\' + '\x41' + '\0'; }
int compare_kinds(int a) { return (a > -1) + (a > -1u) * 2 + (a > -1L) * 4; }
uint8_t narrow(uint32_t a) { uint16_t b = a; return b; }
