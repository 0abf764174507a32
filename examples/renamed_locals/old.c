// how often step can be taken from n
int steps(int n, int step)
{
    int left = n;
    int taken = 0;
    while (left >= step) {
        left -= step;
        taken++;
    }
    return taken;
}

int last(int n)
{
    int digit = 0;
    do {
        digit = n % 10;
        n /= 10;
    } while (n > 0);
    return digit;
}

int twice(int n)
{
    int sum = n + n;
    return sum;
}
