// run: factorial 12
// run: fib 15
// run: ackermann 2 3
// run: hanoi 8
// run: is_even 50
// run: is_odd 50
// run: binomial 10 4
// run: digits 98765
// run: f91 50
// run: deepest 5000
int factorial(int n) { if (n <= 1) return 1; return n * factorial(n - 1); }
int fib(int n) { return n < 2 ? n : fib(n - 1) + fib(n - 2); }
int ackermann(int m, int n) { if (m == 0) return n + 1; if (n == 0) return ackermann(m - 1, 1); return ackermann(m - 1, ackermann(m, n - 1)); }
int hanoi(int n) { return n == 0 ? 0 : 2 * hanoi(n - 1) + 1; }
int is_odd(unsigned n);
int is_even(unsigned n) { if (n == 0) return 1; return is_odd(n - 1); }
int is_odd(unsigned n) { if (n == 0) return 0; return is_even(n - 1); }
int binomial(int n, int k) { if (k == 0 || k == n) return 1; return binomial(n - 1, k - 1) + binomial(n - 1, k); }
int digits(int n) { return n < 10 ? n : digits(n / 10) + n % 10; }
int f91(int n) { if (n > 100) return n - 10; return f91(f91(n + 11)); }
int deepest(int n) { if (n == 0) return 0; return 1 + deepest(n - 1); }
