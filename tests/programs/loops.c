// run: sum 10
// run: sum 0
// run: squares 7
// run: until 100
// run: skip 10
// run: stop 1000
// run: nested 5
// run: collatz 27
// run: gcd 1071 462
// run: gcd 0 0
// run: reverse 12345
// run: digits 9876543
// run: power 3 13 1000
// run: root 1000000
// run: primes 100
// run: fibonacci 40
// run: two 10
int sum(int n) { int s = 0; int i; for (i = 0; i < n; i++) s += i; return s; }
int squares(int n) { int s = 0; int i = 1; while (i <= n) { s = s + i * i; i++; } return s; }
int until(int n) { int i = 1; do { i = i * 2; } while (i < n); return i; }
int skip(int n) { int s = 0; for (int i = 0; i < n; i++) { if (i % 3 == 0) continue; s += i; } return s; }
int stop(int n) { int i; for (i = 0; ; i++) { if (i * i > n) break; } return i; }
int nested(int n) { int s = 0; for (int i = 0; i < n; i++) { for (int j = i; j < n; j++) { if (j == 3) continue; if (i == 4) break; s += i * 10 + j; } } return s; }
int collatz(unsigned n) { int steps = 0; while (n != 1) { n = n % 2 == 0 ? n / 2 : 3 * n + 1; steps++; } return steps; }
int gcd(int a, int b) { while (b != 0) { int r = a % b; a = b; b = r; } return a; }
int reverse(int n) { int r = 0; while (n) { r = r * 10 + n % 10; n /= 10; } return r; }
int digits(int n) { int s = 0; do { s += n % 10; n /= 10; } while (n > 0); return s; }
int power(int b, int e, int m) { int r = 1; b %= m; while (e > 0) { if (e & 1) r = r * b % m; b = b * b % m; e >>= 1; } return r; }
int root(int n) { int r = 0; while ((r + 1) * (r + 1) <= n) ++r; return r; }
int primes(int n) { int count = 0; for (int i = 2; i <= n; i++) { int prime = 1; for (int d = 2; d * d <= i; d++) { if (i % d == 0) { prime = 0; break; } } count += prime; } return count; }
int fibonacci(int n) { int a = 0, b = 1; for (; n > 0; n--) { int c = a + b; a = b; b = c; } return a; }
int two(int n) { int i, j, s = 0; for (i = 0, j = n; i < j; i++, j--) s += j - i; return s; }
