// A peer of the same algorithm: document 01's plan over an indexed binary heap of packed keys, with the same order of ties, the
// same stop test and its memory, and the same lists left; and its report and move. It checks nothing.
#include "../bench.h"
#include <cstdlib>
#include <cstring>

namespace {

State drive;
size_t width, height;

// (by 32 bits: many processors divide 64 at half the speed, and gcc does not look whether 32 would do)
size_t column(size_t c, size_t w) { return (uint32_t)c % (uint32_t)w; }

size_t beside_in(size_t w, size_t n, size_t c, size_t col, int d) {
    switch (d) {
    case 1: return col + 1 < w ? c + 1 : n;
    case 2: return c + w < n ? c + w : n;
    case 3: return col > 0 ? c - 1 : n;
    case 4: return c >= w ? c - w : n;
    }
    return n;
}

// Whether links lead from c to the goal, learned values falling by one; a cell walked once without reaching it never does.
bool leads(size_t w, size_t n, const State &s, u8 *gone, size_t c) {
    u16 left = s.learned[c];
    while (c != s.goal) {
        if (left == 0 || gone[c]) return false;
        gone[c] = 1;
        size_t x = beside_in(w, n, c, column(c, w), s.link[c]);
        if (x >= n || s.learned[x] != left - 1) return false;
        c = x;
        left--;
    }
    return true;
}

bool stands(size_t w, size_t n, const State &s) {
    size_t c = s.cell;
    for (u16 left = s.learned[c]; c != s.goal; left--) {
        size_t x = beside_in(w, n, c, column(c, w), s.link[c]);
        if (left == 0 || x >= n || s.learned[x] != left - 1) return false;
        c = x;
    }
    return true;
}

struct Heap {
    u64 keys[CELLS + 3];
    u16 place[CELLS];
    size_t length;

    static u64 key(u16 cost, u16 learned, size_t c) { return (u64)(cost + learned) << 32 | (u64)(65535 - cost) << 16 | c; }
    static size_t cell(u64 key) { return key & 65535; }

    void put(size_t i, u64 v) {
        keys[i] = v;
        place[cell(v)] = (u16)i;
    }

    void rise(size_t i, u64 v) {
        for (; i > 1 && v < keys[i / 2]; i /= 2) put(i, keys[i / 2]);
        put(i, v);
    }

    void add(u64 v) { rise(++length, v); }

    // (a last key that is greater than all stands for the second child that may be missing)
    void drop_first() {
        u64 v = keys[length];
        keys[length--] = UINT64_MAX;
        if (!length) return;
        size_t i = 1;
        for (size_t k; (k = 2 * i) <= length; i = k) {
            k += keys[k + 1] < keys[k];
            if (v <= keys[k]) break;
            put(i, keys[k]);
        }
        put(i, v);
    }
};

void expand(size_t w, size_t n, State &s, Heap &heap, size_t x) {
    u16 cost = s.cost[x] + 1;
    size_t col = column(x, w);
    for (int d = 1; d <= 4; d++) {
        size_t y = beside_in(w, n, x, col, d);
        if (y >= n || s.ground[y] || cost >= s.cost[y]) continue;
        bool waits = s.mark[y] == 1;
        s.mark[y] = 1;
        s.cost[y] = cost;
        s.trail[y] = (u8)d;
        u64 key = Heap::key(cost, s.learned[y], y);
        if (waits) heap.rise(heap.place[y], key);
        else heap.add(key);
    }
}

size_t learn(size_t w, size_t n, State &s, const u16 *list, size_t stop) {
    size_t length = s.cost[stop] + s.learned[stop], at = stop;
    for (size_t i = 0; i < s.expanded; i++) s.learned[list[i]] = (u16)(length - s.cost[list[i]]);
    for (size_t v = s.cost[stop]; v; v--) {
        int d = s.trail[at];
        at = beside_in(w, n, at, column(at, w), d <= 2 ? d + 2 : d - 2);
        s.link[at] = (u8)d;
    }
    return length;
}

// What a search works in beside the lists that it leaves.
struct Space {
    Heap heap;
    u16 list[CELLS];
    u8 gone[CELLS];
};

size_t search(size_t w, size_t n, State &s, Space &space) {
    Heap &heap = space.heap;
    heap.length = 0;
    memset(space.gone, 0, n);
    memset(s.mark, 0, n);
    memset(s.trail, 0, n);
    memset(s.cost, 255, 2 * n);
    s.mark[s.cell] = 1;
    s.cost[s.cell] = 0;
    heap.add(Heap::key(0, s.learned[s.cell], s.cell));
    while (heap.length) {
        size_t x = Heap::cell(heap.keys[1]);
        if (leads(w, n, s, space.gone, x)) return learn(w, n, s, space.list, x);
        s.mark[x] = 2;
        space.list[s.expanded++] = (u16)x;
        heap.drop_first();
        expand(w, n, s, heap, x);
    }
    return NO_WAY;
}

} // namespace

extern "C" size_t heap_plan(size_t w, size_t h, State *s) {
    Space space;
    s->expanded = 0;
    return s->cell == s->goal ? 0 : search(w, w * h, *s, space);
}

extern "C" size_t heap_plan_cleared(size_t w, size_t h, State *s) {
    Space space{};
    s->expanded = 0;
    return s->cell == s->goal ? 0 : search(w, w * h, *s, space);
}

extern "C" void adaptive_lay_out(size_t w, size_t h, size_t start, size_t goal) {
    width = w, height = h;
    drive.goal = goal, drive.cell = start;
    memset(drive.ground, 0, w * h);
    memset(drive.link, 0, w * h);
    for (size_t c = 0; c < w * h; c++)
        drive.learned[c] = (u16)(abs((int)(c / w) - (int)(goal / w)) + abs((int)(c % w) - (int)(goal % w)));
}

extern "C" void adaptive_report(size_t c) {
    size_t n = width * height;
    drive.ground[c] = 1;
    drive.link[c] = 0;
    for (int d = 1; d <= 4; d++) {
        size_t y = beside_in(width, n, c, column(c, width), d);
        if (y < n && drive.link[y] == (d <= 2 ? d + 2 : d - 2)) drive.link[y] = 0;
    }
}

extern "C" size_t adaptive_plan() { return heap_plan(width, height, &drive); }

// Document 01's move: whether a route stands is asked at each step, for that is how a drive comes to know that it must plan.
extern "C" void adaptive_move(size_t) {
    size_t n = width * height, at = drive.cell;
    if (!stands(width, n, drive)) return;
    drive.cell = beside_in(width, n, at, column(at, width), drive.link[at]);
    drive.link[at] = 0;
}

extern "C" const State *adaptive_state() { return &drive; }
