int fast(int x);
int gone(int x);

int slow(int x)
{
    while (x > 100)
        x -= 100;
    return x;
}

int both(int x) { return x + 1; }
