#include <stdint.h>
#include <stddef.h>
// run: swapped 3 4
// run: summed
// run: through 5
// run: walked
// run: copied
// run: middle
// run: equal
// run: null_tested
// run: fields 7
// run: nested_fields
// run: element 2
// run: chained 9
// run: added 5
// run: moved
// run: backwards
static void swap(int *p, int *q) { int t = *p; *p = *q; *q = t; }
int swapped(int a, int b) { swap(&a, &b); return a * 10 + b; }
static int sum(const int *p, int n) { int s = 0; for (int i = 0; i < n; i++) s += p[i]; return s; }
int summed(void) { int a[4] = { 1, 2, 3, 4 }; return sum(a, 4) * 100 + sum(a + 1, 2); }
static void increase(int *p) { *p = *p + 1; }
int through(int a) { int x = a; increase(&x); increase(&x); return x; }
int walked(void) { int a[3] = { 4, 5, 6 }; int *p = a; int s = 0; s = *p; p++; s = s * 10 + *p; ++p; s = s * 10 + *p; return s; }
static void copy(uint8_t *to, const uint8_t *from, size_t n) { size_t i; for (i = 0; i < n; i++) to[i] = from[i]; }
int copied(void) { uint8_t a[3] = { 1, 2, 3 }; uint8_t b[3] = { 9, 9, 9 }; copy(b + 1, a, 2); return b[0] * 100 + b[1] * 10 + b[2]; }
int middle(void) { int a[5] = { 1, 2, 3, 4, 5 }; int *p = &a[2]; p[-1] = 7; p[1] = 8; return a[1] * 10 + a[3]; }
int equal(void) { int a[2]; int *p = a; int *q = &a[1]; return (p == q) + (p + 1 == q) * 10 + (p != q) * 100; }
static int safe(const int *p) { return p == NULL ? -1 : *p; }
int null_tested(void) { int x = 8; return safe(NULL) * 100 + safe(&x); }
struct point { int x; int y; };
static void move_by(struct point *p, int by) { p->x += by; p->y -= by; }
int fields(int n) { struct point p = { 10, 20 }; move_by(&p, n); return p.x * 100 + p.y; }
struct box { struct point corner[2]; int depth; };
struct box box = { { { 1, 2 }, { 3, 4 } }, 5 };
int nested_fields(void) { struct point *p = &box.corner[1]; p->x = 9; return box.corner[0].y * 1000 + box.corner[1].x * 100 + box.corner[1].y * 10 + box.depth; }
int element(int i) { struct point list[3] = { { 1, 2 }, { 3, 4 }, { 5, 6 } }; struct point *p = &list[i]; return p->x * 10 + (*p).y; }
int chained(int a) { int x = a; int *p = &x; int *q = p; *q += 1; *p *= 2; return x; }
int added(int n) { int a[6] = { 0, 1, 2, 3, 4, 5 }; int *p = a; p += n; p -= 2; return *p; }
int moved(void) { long a[4] = { 10, 20, 30, 40 }; long *p = a + 3; return *(p - 2) + *(2 + a); }
int backwards(void) { int a[4] = { 1, 2, 3, 4 }; int *p = a + 3; int s = 0; int i; for (i = 0; i < 4; i++) { s = s * 10 + *p; if (p != a) p--; } return s; }
