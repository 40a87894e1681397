// The record's codec in C: copies for links, copies and exchanged bytes for learned, words of eight cells for ground.
#include "../bench.h"
#include <string.h>

static u8 *front(u8 *p, u8 tag, size_t size) {
    p[0] = tag, p[1] = (u8)(size >> 8), p[2] = (u8)size;
    return p + 3;
}

// n is a multiple of 8 here
void codec_read(const u8 *restrict bytes, size_t n, u8 *restrict ground, u16 *restrict learned, u8 *restrict link) {
    const u8 *p = bytes + 21, *l = p + n / 8 + 3, *k = l + 2 * n + 3;
    for (size_t j = 0; j < n / 8; j++) {
        u64 b = p[j], x = ((b & 0x7f) * 0x0002040810204081ULL & 0x0101010101010101ULL) | (b & 0x80) << 49;
        memcpy(ground + 8 * j, &x, 8);
    }
    memcpy(learned, l, 2 * n);
    for (size_t i = 0; i < n; i++) learned[i] = __builtin_bswap16(learned[i]);
    memcpy(link, k, n);
}

void codec_write(size_t w, size_t h, size_t goal, size_t cell, const u8 *restrict ground, const u16 *restrict learned, const u8 *restrict link,
              u8 *restrict bytes) {
    size_t n = w * h;
    u8 *p = bytes;
    p = front(p, 1, 1), *p++ = (u8)w;
    p = front(p, 2, 1), *p++ = (u8)h;
    p = front(p, 3, 2), *p++ = (u8)(goal >> 8), *p++ = (u8)goal;
    p = front(p, 4, 2), *p++ = (u8)(cell >> 8), *p++ = (u8)cell;
    p = front(p, 5, n / 8);
    for (size_t j = 0; j < n / 8; j++) {
        u64 x;
        memcpy(&x, ground + 8 * j, 8);
        *p++ = (u8)(x * 0x0102040810204080ULL >> 56);
    }
    p = front(p, 6, 2 * n);
    for (size_t i = 0; i < n; i++, p += 2) {
        u16 v = __builtin_bswap16(learned[i]);
        memcpy(p, &v, 2);
    }
    p = front(p, 7, n);
    memcpy(p, link, n);
}
