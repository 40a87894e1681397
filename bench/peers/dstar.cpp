// A peer: D* Lite in its optimised form (Koenig and Likhachev 2002, figure 4), searching from the goal to the cart, incremental
// over the drive; its queue is an indexed binary heap. It checks nothing.
#include "../bench.h"
#include <algorithm>
#include <cstdlib>
#include <cstring>

namespace {

constexpr u16 FAR = 65535;

size_t width, cells, cart, goal, last, km;
u8 ground[CELLS], row[CELLS], column[CELLS];
u16 g[CELLS], rhs[CELLS];

// The queue: keys of the two numbers of D* Lite and the cell, and where each cell stands in it, or 0. Behind its last key all are
// greater than any, and stand for the second child that may be missing.
u64 keys[CELLS + 2];
u16 place[CELLS];
size_t length;

size_t cell_of(u64 key) { return key & 65535; }
u64 order_of(u64 key) { return key >> 16; }

void put(size_t i, u64 v) {
    keys[i] = v;
    place[cell_of(v)] = (u16)i;
}

// Lets v find its place from i, upwards or downwards.
void settle(size_t i, u64 v) {
    for (; i > 1 && v < keys[i / 2]; i /= 2) put(i, keys[i / 2]);
    for (size_t k; (k = 2 * i) <= length; i = k) {
        k += keys[k + 1] < keys[k];
        if (v <= keys[k]) break;
        put(i, keys[k]);
    }
    put(i, v);
}

void remove(size_t c) {
    size_t i = place[c];
    place[c] = 0;
    u64 v = keys[length];
    keys[length--] = UINT64_MAX;
    if (i <= length) settle(i, v);
}

size_t apart(size_t a, size_t b) { return (size_t)(abs(row[a] - row[b]) + abs(column[a] - column[b])); }

u64 key(size_t c) {
    u64 least = std::min(g[c], rhs[c]);
    u64 first = least == FAR ? UINT32_MAX : least + apart(cart, c) + km;
    return first << 32 | least << 16 | c;
}

void update(size_t c) {
    if (g[c] == rhs[c]) {
        if (place[c]) remove(c);
    } else if (place[c]) settle(place[c], key(c));
    else settle(++length, key(c));
}

template <class F> void each_beside(size_t c, F f) {
    size_t col = column[c];
    if (col + 1 < width && !ground[c + 1]) f(c + 1);
    if (c + width < cells && !ground[c + width]) f(c + width);
    if (col && !ground[c - 1]) f(c - 1);
    if (c >= width && !ground[c - width]) f(c - width);
}

u16 after(u16 distance) { return distance == FAR ? FAR : (u16)(distance + 1); }

u16 best_step(size_t c) {
    u16 best = FAR;
    if (!ground[c]) each_beside(c, [&](size_t y) { best = std::min(best, after(g[y])); });
    return best;
}

void lower(size_t u) {
    g[u] = rhs[u];
    remove(u);
    if (ground[u]) return;
    each_beside(u, [&](size_t s) {
        if (s != goal) rhs[s] = std::min(rhs[s], after(g[u]));
        update(s);
    });
}

void raise(size_t u) {
    u16 old = g[u];
    g[u] = FAR;
    if (!ground[u])
        each_beside(u, [&](size_t s) {
            if (rhs[s] == after(old) && s != goal) rhs[s] = best_step(s);
            update(s);
        });
    if (rhs[u] == old && u != goal) rhs[u] = best_step(u);
    update(u);
}

} // namespace

extern "C" void dstar_lay_out(size_t w, size_t h, size_t start, size_t to) {
    width = w, cells = w * h, cart = last = start, goal = to, km = 0, length = 0;
    memset(ground, 0, sizeof ground);
    memset(keys, 255, sizeof keys);
    memset(place, 0, sizeof place);
    memset(g, 255, sizeof g);
    memset(rhs, 255, sizeof rhs);
    for (size_t c = 0; c < cells; c++) row[c] = (u8)(c / w), column[c] = (u8)(c % w);
    rhs[goal] = 0;
    update(goal);
}

// The steps to and from the cell now cost more than any way.
extern "C" void dstar_report(size_t c) {
    if (cart != last) km += apart(last, cart), last = cart;
    u16 old = g[c];
    ground[c] = 1;
    each_beside(c, [&](size_t y) {
        if (old == FAR || rhs[y] != after(old) || y == goal) return;
        rhs[y] = best_step(y);
        update(y);
    });
    if (c == goal) return;
    rhs[c] = FAR;
    update(c);
}

extern "C" size_t dstar_plan() {
    if (cart != last) km += apart(last, cart), last = cart;
    while (length && (order_of(keys[1]) < order_of(key(cart)) || rhs[cart] > g[cart])) {
        size_t u = cell_of(keys[1]);
        u64 now = key(u);
        if (order_of(keys[1]) < order_of(now)) settle(1, now);
        else if (g[u] > rhs[u]) lower(u);
        else raise(u);
    }
    return rhs[cart] == FAR ? (size_t)NO_WAY : rhs[cart];
}

extern "C" void dstar_move(size_t c) { cart = c; }
