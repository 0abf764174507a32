int count;
int limit = 100;

void step(void) { count++; }

int twice(int x) { return 2 * x; }
