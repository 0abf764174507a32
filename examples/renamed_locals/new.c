// how often step can be taken from n; the names of two locals have changed places
int steps(int n, int step)
{
    int taken = n;
    int left = 0;
    while (taken >= step) {
        taken -= step;
        left++;
    }
    return left;
}

int last(int number)
{
    int digit = 0;
    do {
        digit = number % 10;
        number /= 10;
    } while (number > 0);
    return digit;
}

// a renamed local that no loop names changes nothing
int twice(int n)
{
    int both = n + n;
    return both;
}
