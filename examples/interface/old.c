int blend(int a, int b)
{
    return a + b;
}

int average_of_equals(int a)
{
    return blend(a, a) * 2;
}

int retired(int a)
{
    return a - 1;
}

int power(int base, int exponent)
{
    if (exponent <= 0)
        return 1;
    return base * power(base, exponent - 1);
}
