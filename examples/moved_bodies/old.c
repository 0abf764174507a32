int fast(int x);
int slow(int x);

int both(int x) { return x + 1; }

int gone(int x)
{
    int bits = 0;
    for (; x > 0; x /= 2)
        bits++;
    return bits;
}
