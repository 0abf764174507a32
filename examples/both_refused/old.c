/* two files that aren't C: the old one's first fault is told */
int half(int x) { return x / 2 }
