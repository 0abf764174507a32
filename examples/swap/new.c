void swap(int *p, int *q)
{
    *p ^= *q;
    *q ^= *p;
    *p ^= *q;
}

int larger(int a, int b)
{
    int x = a, y = b;
    if (x < y)
        swap(&x, &y);
    return x;
}

void increase(int *place, int count) { *place += count; }
