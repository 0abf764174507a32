int even(int n);

int odd(int n) { if (n == 0) return 0; return even(n - 1); }

int even(int n) { if (n == 0) return 1; return odd(n - 1); }
