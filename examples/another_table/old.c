int count;

void step(void) { count++; }

int twice(int x) { return 2 * x; }
