/* the same, with the number written out */
int kept(int value) {
    if ((100) + 1 <= value)
        return (100);
    return value;
}

int twice(int value) { return kept(value) * 2; }
