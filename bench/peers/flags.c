// The soundness test in plain C, in its flags form: no exit in a loop, so that the compiler makes vectors of each.
#include "../bench.h"
#include <string.h>

static inline u8 bad_pair(u8 ga, u8 gb, u8 e, u16 la, u16 lb, u8 ka, u8 kb, u8 to, u8 from) {
    u16 apart = la > lb ? la - lb : lb - la;
    u8 far = (ga == 0) & (gb == 0) & (e == 0) & (apart > 1);
    u8 onward = (ka == to) & ((gb != 0) | (e != 0));
    u8 back = (kb == from) & ((ga != 0) | (e != 0));
    return far | onward | back;
}

int flags_sound(size_t w, size_t h, size_t goal, size_t cell, const u8 *g, const u16 *l, const u8 *k) {
    size_t n = w * h;
    u8 end[CELLS], bad = 0;
    u16 top = n - 1, big = 0;
    memset(end, 0, sizeof end);
    for (size_t r = 0; r < h; r++) end[r * w + w - 1] = 1;
    for (size_t i = 0; i < n; i++) bad |= (g[i] > 1) | (k[i] > 4) | ((k[i] != 0) & (g[i] != 0));
    for (size_t i = 0; i < n; i++) big |= l[i] > top;
    bad |= big;
    for (size_t i = 0; i + 1 < n; i++) bad |= bad_pair(g[i], g[i + 1], end[i], l[i], l[i + 1], k[i], k[i + 1], 1, 3);
    for (size_t i = 0; i + w < n; i++) bad |= bad_pair(g[i], g[i + w], 0, l[i], l[i + w], k[i], k[i + w], 2, 4);
    for (size_t i = 0; i < w; i++) bad |= (k[i] == 4) | (k[n - w + i] == 2);
    bad |= (k[0] == 3) | (k[n - 1] == 1) | (g[cell] != 0) | (l[goal] != 0) | (k[goal] != 0);
    return bad;
}
