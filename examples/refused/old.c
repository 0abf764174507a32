static int total;

void add(int value)
{
    total += value;
}
