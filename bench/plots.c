// The kinds of plot that are driven over: random ground, rooms, mazes, nursery rows and a serpentine.
#include "bench.h"
#include <stdlib.h>
#include <string.h>

static u64 seed = 88172645463325252ULL;

void seed_plots(u64 s) { seed = s ? s : 1; }

static u64 rnd(void) {
    seed ^= seed << 13;
    seed ^= seed >> 7;
    seed ^= seed << 17;
    return seed;
}

size_t beside(size_t c, int d) {
    switch (d) {
    case 1: return c % WIDTH + 1 < WIDTH ? c + 1 : CELLS;
    case 2: return c + WIDTH < CELLS ? c + WIDTH : CELLS;
    case 3: return c % WIDTH ? c - 1 : CELLS;
    case 4: return c >= WIDTH ? c - WIDTH : CELLS;
    }
    return CELLS;
}

static void random_ground(u8 *t, unsigned percent) {
    for (int i = 0; i < CELLS; i++) t[i] = rnd() % 100 < percent;
}

static void random10(u8 *t) { random_ground(t, 10); }
static void random25(u8 *t) { random_ground(t, 25); }
static void random40(u8 *t) { random_ground(t, 40); }

// Sixteen rooms with a door in each wall between two, and a cell in twenty blocked.
static void rooms(u8 *t) {
    for (int i = 0; i < CELLS; i++) t[i] = i / WIDTH % 16 == 15 || i % WIDTH % 16 == 15;
    for (int a = 0; a < 4; a++)
        for (int b = 0; b < 4; b++) {
            if (b < 3) t[(a * 16 + rnd() % 15) * WIDTH + b * 16 + 15] = 0;
            if (a < 3) t[(a * 16 + 15) * WIDTH + b * 16 + rnd() % 15] = 0;
        }
    for (int i = 0; i < CELLS; i++)
        if (rnd() % 100 < 5) t[i] = 1;
}

// A maze with one way between any two of its cells: depth first, walls one cell thick.
static void maze(u8 *t) {
    static int stack[CELLS];
    static const int dr[] = {0, 2, 0, -2}, dc[] = {2, 0, -2, 0};
    int top = 0;
    memset(t, 1, CELLS);
    stack[top++] = 0;
    t[0] = 0;
    while (top) {
        int r = stack[top - 1] / WIDTH, c = stack[top - 1] % WIDTH, open[4], m = 0;
        for (int d = 0; d < 4; d++) {
            int y = r + dr[d], x = c + dc[d];
            if (y >= 0 && y < HEIGHT - 1 && x >= 0 && x < WIDTH - 1 && t[y * WIDTH + x]) open[m++] = d;
        }
        if (!m) {
            top--;
            continue;
        }
        int d = open[rnd() % m];
        t[(r + dr[d] / 2) * WIDTH + c + dc[d] / 2] = 0;
        t[(r + dr[d]) * WIDTH + c + dc[d]] = 0;
        stack[top++] = (r + dr[d]) * WIDTH + c + dc[d];
    }
}

// The same with a wall cell in twenty opened.
static void maze_opened(u8 *t) {
    maze(t);
    for (int i = 0; i < CELLS; i++)
        if (t[i] && rnd() % 100 < 5) t[i] = 0;
}

// Beds of three rows, aisles of one, cross aisles, and pallets on the aisles.
static void nursery(u8 *t) {
    for (int i = 0; i < CELLS; i++) t[i] = i / WIDTH % 4 != 0 && i % WIDTH % 21 != 0;
    for (int i = 0; i < CELLS; i++)
        if (!t[i] && rnd() % 100 < 4) t[i] = 1;
}

const Kind kinds[] = {
    {"random 10 %", random10}, {"random 25 %", random25}, {"random 40 %", random40}, {"rooms", rooms},
    {"maze", maze}, {"maze, 5 % opened", maze_opened}, {"nursery rows", nursery},
};
const size_t kind_count = sizeof kinds / sizeof *kinds;

// Whether a way leads from the start to the goal.
static int joined(const Plot *p) {
    static u16 queue[CELLS];
    static u8 seen[CELLS];
    size_t head = 0, tail = 0;
    memset(seen, 0, sizeof seen);
    queue[tail++] = (u16)p->start;
    seen[p->start] = 1;
    while (head < tail) {
        size_t x = queue[head++];
        for (int d = 1; d <= 4; d++) {
            size_t y = beside(x, d);
            if (y < CELLS && !p->truth[y] && !seen[y]) seen[y] = 1, queue[tail++] = (u16)y;
        }
    }
    return seen[p->goal];
}

static size_t free_cell(const u8 *t) {
    size_t c;
    do c = rnd() % CELLS;
    while (t[c]);
    return c;
}

// A plot of that kind whose goal can be reached, and is at least so far from the start in steps over open ground.
void draw_plot(const Kind *kind, int far, Plot *p) {
    for (;;) {
        kind->draw(p->truth);
        p->start = free_cell(p->truth);
        p->goal = free_cell(p->truth);
        int rows = (int)(p->start / WIDTH) - (int)(p->goal / WIDTH), cols = (int)(p->start % WIDTH) - (int)(p->goal % WIDTH);
        if (abs(rows) + abs(cols) >= far && joined(p)) return;
    }
}

// A corridor that winds over the whole plot.
void serpentine(Plot *p) {
    memset(p->truth, 0, CELLS);
    for (int r = 1; r < HEIGHT; r += 2)
        for (int c = 0; c < WIDTH; c++) p->truth[r * WIDTH + c] = c != (r / 2 % 2 ? 0 : WIDTH - 1);
    p->start = 0;
    p->goal = (HEIGHT - 2) * WIDTH;
}
