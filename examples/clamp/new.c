int clamp(int value, int low, int high)
{
    if (value <= low)
        return low;
    if (high <= value)
        return high;
    return value;
}

int gained(int sample, int gain)
{
    return clamp(sample * gain, 0, 4096);
}

int mixed(int left, int right, int gain)
{
    return gained(left, gain) + gained(right, gain);
}
