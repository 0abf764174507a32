// run: sieve 100
// run: sort 3 1 2
// run: matrix 4
// run: queens
// run: edit
// run: knapsack 50
// run: search 7
// run: search 8
// run: rows 3
// run: partly
// run: global_kept 6
// run: memo 30
// run: histogram
// run: rotate 3
int sieve(int n) {
    _Bool out[200] = { 0 };
    int count = 0;
    for (int i = 2; i < n; i++) {
        if (out[i]) continue;
        count++;
        for (int j = i * i; j < n; j += i) out[j] = 1;
    }
    return count;
}
int sort(int a, int b, int c) {
    int list[3] = { a, b, c };
    for (int i = 1; i < 3; i++) {
        int x = list[i];
        int j = i - 1;
        while (j >= 0 && list[j] > x) { list[j + 1] = list[j]; j--; }
        list[j + 1] = x;
    }
    return list[0] * 100 + list[1] * 10 + list[2];
}
int matrix(int n) {
    int a[4][4];
    int b[4][4];
    int trace = 0;
    for (int i = 0; i < n; i++) for (int j = 0; j < n; j++) { a[i][j] = i + j; b[i][j] = i - j; }
    for (int i = 0; i < n; i++) {
        int s = 0;
        for (int k = 0; k < n; k++) s += a[i][k] * b[k][i];
        trace += s;
    }
    return trace;
}
int place(unsigned columns, unsigned left, unsigned right) {
    int count = 0;
    unsigned free;
    if (columns == 63) return 1;
    for (free = ~(columns | left | right) & 63; free != 0; free &= free - 1) {
        unsigned bit = free & -free;
        count += place(columns | bit, (left | bit) << 1, (right | bit) >> 1);
    }
    return count;
}
int queens(void) { return place(0, 0, 0); }
const char first[6] = { 'k', 'i', 't', 't', 'e', 'n' };
const char second[7] = { 's', 'i', 't', 't', 'i', 'n', 'g' };
int edit(void) {
    int row[8];
    for (int j = 0; j < 8; j++) row[j] = j;
    for (int i = 1; i <= 6; i++) {
        int corner = row[0];
        row[0] = i;
        for (int j = 1; j <= 7; j++) {
            int above = row[j];
            int best = corner + (first[i - 1] != second[j - 1]);
            if (above + 1 < best) best = above + 1;
            if (row[j - 1] + 1 < best) best = row[j - 1] + 1;
            row[j] = best;
            corner = above;
        }
    }
    return row[7];
}
const int weights[5] = { 12, 7, 11, 8, 9 };
const int values[5] = { 24, 13, 23, 15, 16 };
int best[101];
int knapsack(int room) {
    for (int i = 0; i < 5; i++)
        for (int w = room; w >= weights[i]; w--)
            if (best[w - weights[i]] + values[i] > best[w]) best[w] = best[w - weights[i]] + values[i];
    return best[room];
}
const int sorted[8] = { 1, 3, 4, 7, 9, 12, 20, 31 };
int search(int x) {
    int low = 0, high = 8;
    while (low < high) {
        int middle = low + (high - low) / 2;
        if (sorted[middle] == x) return middle;
        if (sorted[middle] < x) low = middle + 1; else high = middle;
    }
    return -1;
}
int rows(int n) { int t[3][2] = { { 1, 2 }, { 3, 4 }, { 5, 6 } }; int s = 0; for (int i = 0; i < n; i++) s = s * 10 + t[i][1]; return s; }
int partly(void) { int t[5] = { 7, 8 }; return t[0] * 10000 + t[1] * 1000 + t[2] * 100 + t[3] * 10 + t[4]; }
int kept[4];
int global_kept(int n) { for (int i = 0; i < n; i++) kept[i % 4] += i; return kept[0] + kept[1] * 10 + kept[2] * 100 + kept[3] * 1000; }
long known[64];
long memo(int n) { if (n < 2) return n; if (known[n]) return known[n]; known[n] = memo(n - 1) + memo(n - 2); return known[n]; }
const unsigned char text[12] = { 3, 1, 2, 3, 3, 0, 1, 3, 2, 2, 3, 1 };
int histogram(void) { int counts[4] = { 0 }; for (int i = 0; i < 12; i++) counts[text[i]]++; return counts[0] + counts[1] * 10 + counts[2] * 100 + counts[3] * 1000; }
int rotate(int k) { int a[5] = { 1, 2, 3, 4, 5 }; int s = 0; for (; k > 0; k--) { int last = a[4]; for (int i = 4; i > 0; i--) a[i] = a[i - 1]; a[0] = last; } for (int i = 0; i < 5; i++) s = s * 10 + a[i]; return s; }
