// run: add 2147483647 1
// run: sub -- -2147483648 1
// run: mul 65536 65537
// run: neg -- -2147483648
// run: quotient -- -7 2
// run: rest -- -7 2
// run: rest -- 7 -3
// run: left 1 31
// run: right -- -9 1
// run: flip 0
// run: logic 0 5
// run: logic 7 0
// run: mixed -- -1 1
// run: choose 5 9
// run: bits 202 119
// run: not_twice 77
int add(int a, int b) { return a + b; }
int sub(int a, int b) { return a - b; }
int mul(int a, int b) { return a * b; }
int neg(int a) { return -a; }
int quotient(int a, int b) { return a / b; }
int rest(int a, int b) { return a % b; }
int left(int a, int b) { return a << b; }
int right(int a, int b) { return a >> b; }
int flip(int a) { return ~a; }
int logic(int a, int b) { return (a && b) * 100 + (a || b) * 10 + !a; }
int mixed(int a, unsigned b) { return a < b; }
int choose(int a, int b) { return a > b ? a - b : b - a; }
int bits(int a, int b) { return (a & b) * 1000000 + (a | b) * 1000 + (a ^ b); }
int not_twice(int a) { return !!a + ~~a + - -a; }
