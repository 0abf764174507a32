void swap(int *p, int *q)
{
    int t = *p;
    *p = *q;
    *q = t;
}

int larger(int a, int b)
{
    int x = a, y = b;
    if (x < y)
        swap(&x, &y);
    return x;
}

void increase(int *p, int by) { *p += by; }
