// What the parts of the benchmark share: plots, drives as they were logged, and whoever is run over them.
#ifndef BENCH_H
#define BENCH_H

#include <stddef.h>
#include <stdint.h>

typedef uint8_t u8;
typedef uint16_t u16;
typedef uint64_t u64;

enum { WIDTH = 64, HEIGHT = 64, CELLS = WIDTH * HEIGHT, NO_WAY = 65535, RECORD = 12827, MOST_STATES = 100 };

#ifdef __cplusplus
extern "C" {
#endif

// The true ground, where the cart starts and where it is to go.
typedef struct {
    u8 truth[CELLS];
    size_t start, goal;
} Plot;

typedef struct {
    const char *name;
    void (*draw)(u8 *truth);
} Kind;

extern const Kind kinds[];
extern const size_t kind_count;
void seed_plots(u64 seed);
void draw_plot(const Kind *kind, int far, Plot *plot);
void serpentine(Plot *plot);
size_t beside(size_t cell, int direction); // CELLS where there is none

// One call of a drive: a report of a cell, a plan (cell is then the length that the proved library answered), or a move to a cell.
typedef enum { REPORT, PLAN, MOVE } Call;
typedef struct {
    Call call;
    u16 cell;
} Event;

// The calls of a drive, in order; the first `before` of them are not timed.
typedef struct {
    Plot plot;
    Event *events;
    size_t count, before, plans;
} Drive;

void log_drive(const Plot *plot, Drive *drive);
void log_search(const Plot *plot, Drive *drive);          // all of the ground known, one plan
void log_cut(const Plot *plot, size_t cell, Drive *drive); // the same, then the cell reported, and one plan more
void free_drive(Drive *drive);

// What a search of document 01 leaves.
typedef struct {
    size_t goal, cell, expanded;
    u8 ground[CELLS], link[CELLS], mark[CELLS], trail[CELLS];
    u16 learned[CELLS], cost[CELLS];
} State;

// Whoever takes the calls of a drive. A plan answers its length or NO_WAY. `state` is there where the algorithm is document 01's.
typedef struct {
    const char *name;
    void (*lay_out)(size_t width, size_t height, size_t start, size_t goal);
    void (*report)(size_t cell);
    size_t (*plan)(void);
    void (*move)(size_t cell);
    const State *(*state)(void);
} Contestant;

extern const Contestant contestants[];
extern const size_t contestant_count;

// The peers of the proved functions, in C and C++; they check nothing.
int flags_sound(size_t w, size_t h, size_t goal, size_t cell, const u8 *ground, const u16 *learned, const u8 *link);
size_t heap_plan(size_t w, size_t h, State *s);
size_t heap_plan_cleared(size_t w, size_t h, State *s); // the same, over a working space that it clears first
void codec_read(const u8 *bytes, size_t n, u8 *ground, u16 *learned, u8 *link);
void codec_write(size_t w, size_t h, size_t goal, size_t cell, const u8 *ground, const u16 *learned, const u8 *link, u8 *bytes);

// The proved functions under names that C can call (probe/lib.rt.in, probe_own/lib.rt.in).
#define LENT const u8 *, size_t, u16 *, size_t, u8 *, size_t
#define SCRATCH u8 *, size_t, u16 *, size_t, u8 *, size_t
size_t probe_sound(size_t, size_t, size_t, size_t, const u8 *, size_t, const u16 *, size_t, const u8 *, size_t);
void probe_block(size_t, size_t, size_t, size_t, u8 *, size_t, const u16 *, size_t, u8 *, size_t, size_t);
size_t probe_core(size_t, size_t, size_t, size_t, LENT, SCRATCH, u64 *, size_t, u16 *, size_t, u8 *, size_t, u16 *, size_t);
size_t probe_own(size_t, size_t, size_t, size_t, LENT, SCRATCH);
size_t probe_advance(size_t, size_t, size_t, size_t, const u8 *, size_t, const u16 *, size_t, u8 *, size_t);

size_t states_of(const Drive *drive, State *states, size_t room);
void restore(State *to, const State *s);
int same_lists(const State *a, const State *b);
void want(int holds, const char *what); // or the run ends

void measure_drives(size_t plots, size_t rounds);
void measure_calls(size_t plots, size_t rounds);
void measure_replans(const char *kind, size_t plot, const State *states, size_t count, size_t rounds);

#ifdef __cplusplus
}
#endif
#endif
