// run: plain 2
// run: plain 9
// run: grouped 3
// run: grouped 4
// run: no_default 5
// run: first_default 1
// run: first_default 7
// run: in_loop 10
// run: returns 66
// run: machine
// run: wide -- -1
// run: nested 1 2
// run: scoped 2
enum state { IDLE, RUNNING = 5, DONE };
int plain(int n) { switch (n) { case 1: return 10; case 2: return 20; default: return 30; } }
int grouped(int n) { int r = 0; switch (n) { case 1: case 2: case 3: r = 1; break; case 4: r = 2; break; default: r = 9; } return r; }
int no_default(int n) { int r = 4; switch (n) { case 1: r = 1; break; } return r; }
int first_default(int n) { int r; switch (n) { default: r = 100; break; case 1: r = 7; } return r; }
int in_loop(int n) { int s = 0; for (int i = 0; i < n; i++) { switch (i % 4) { case 0: continue; case 1: s += 1; break; case 2: s += 10; break; default: s += 100; } s += 1000; } return s; }
int returns(int c) { switch (c) { case 'A': return 1; case 'B': return 2; } return 0; }
int next(enum state s) { switch (s) { case IDLE: return RUNNING; case RUNNING: return DONE; default: return IDLE; } }
int machine(void) { int s = IDLE; int trace = 0; for (int i = 0; i < 4; i++) { s = next(s); trace = trace * 10 + s; } return trace; }
int wide(long n) { switch (n) { case -1: return 1; case 0xffffffff: return 2; default: return 3; } }
int nested(int a, int b) { switch (a) { case 1: switch (b) { case 2: return 12; default: break; } return 19; default: return 99; } }
int scoped(int n) { int r = 0; switch (n) { case 1: { int x = 5; r = x; break; } case 2: { int x = 6; r = x * x; break; } } return r; }
