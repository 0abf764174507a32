int half(int x) { return x / two; }
