int power(int base, int exponent)
{
    if (exponent <= 0)
        return 1;
    return base * power(base, exponent - 1);
}

int blend(int a, int b, int weight)
{
    return a * weight + b;
}

int average_of_equals(int a)
{
    return blend(a, a, 1) * 2;
}

int added(int a)
{
    return power(a, 2);
}
