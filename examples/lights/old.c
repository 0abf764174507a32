enum light { RED, GREEN, YELLOW };
typedef enum light Light;

Light next(Light now)
{
    switch (now) {
    case RED:
        return GREEN;
    case GREEN:
        return YELLOW;
    default:
        return RED;
    }
}

int seconds(Light now, int rounds)
{
    int sum = 0;
    do {
        switch (now) {
        case RED:
        case GREEN:
            sum += 30;
            break;
        case YELLOW:
            sum += 5;
        }
        now = next(now);
        rounds--;
    } while (rounds > 0);
    return sum;
}
