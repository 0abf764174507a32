// Runs that trap or reach a bound, beside some that just don't. stopped.txt is worked out by hand.
#include <stddef.h>
#include <stdint.h>

int divide(int a, int b) { return a / b; }
int rest(int a, int b) { return a % b; }
long opposite(long a) { return a / -1; }
int outer(int a) { return divide(a, a - a); }
int guarded(int a, int b) { return b != 0 && a / b; }
int shifted(int a, int b) { return (1 << a) / b; }
int right(unsigned char a, int by) { return a >> by; }
int both(int a, int b) { return a / b + (1 << 40); }

/* a trap in a round of a loop, and in a loop's test */
int late(int n) { int s = 0; for (int i = n; ; i--) s += 12 / i; return s; }
int in_test(int n) { do n--; while (10 / n); return n; }

int table[4] = { 1, 2, 3, 4 };
const int fixed[2] = { 5, 6 };
int grid[2][3] = { { 1, 2, 3 }, { 4, 5, 6 } };
struct pair { int8_t small; int large; };
struct pair pairs[2] = { { 7, 8 }, { 9, 10 } };

int element(int i) { return table[i]; }
int in_grid(int i, int j) { return grid[i][j]; }
int store(int i, int b) { table[i] = 1 / b; return table[i]; }
int first(const int *p) { return *p; }
int at(const int *p, int i) { return p[i]; }
int moved(int *p, int k) { int *q = p + k; return q == p; }
int far(const int *p, uint64_t k) { return p + k == p; }
int back(const int *p, int k) { return *(p - k); }
int field(struct pair *p) { return p->large; }
int write(int *p, int value) { *p = value; return table[0]; }

int no_return(int n) { if (n > 0) return n; }
void nothing(void) { }

int count(int n) { int i = 0; while (i < n) i++; return i; }
void forever(void) { for (;;) { } }
int sum(int n) { int s = 0; for (int i = 0; i < n; i++) s += i; return s; }
int down(int n) { if (n == 0) return 0; return down(n - 1); }
int never(int n) { return never(n); }
