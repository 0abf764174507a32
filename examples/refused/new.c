static int total;

void add(int value)
{
    if (value > LIMIT)
        return;
    total += value;
}
