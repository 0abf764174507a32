typedef int Light;
enum { RED, GREEN, AMBER };

int seconds(Light now, int rounds);

Light next(Light now)
{
    switch (now) {
    case RED: return GREEN;
    case GREEN: return AMBER;
    default: return RED;
    }
}

int seconds(Light now, int rounds)
{
    int sum = 0;
    do {
        switch (now) {
        case RED:
        case GREEN:
            sum += 30;
            break;
        case AMBER:
            sum += 4;
        }
        now = next(now);
        rounds--;
    } while (rounds > 0);
    return sum;
}
