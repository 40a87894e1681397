// Single calls, on the states in which drives planned: the soundness test beside the C flags, plan's call, and the calls over a
// record beside the sum of the test, the core and a codec in C. Answers and lists are compared.
#include "../include/salenduro.h"
#include "bench.h"
#include "timing.h"
#include <stdio.h>
#include <string.h>

enum { BLOCK, CORE, ADVANCE, CALL, SOUND, FLAGS, CODEC, RECORD_REPORT, RECORD_PLAN, RECORD_MOVE, WORKS };
static const char *const works[WORKS] = {"block", "core", "advance", "call", "sound", "flags", "codec", "record-report", "record-plan", "record-move"};

static State proved, planned;
static u64 heap[CELLS + 3], took[WORKS];
static u16 place[CELLS], list[CELLS];
static u8 gone[CELLS];

#define HEAD WIDTH, HEIGHT, proved.goal, proved.cell
#define KEPT proved.ground, CELLS, proved.learned, CELLS, proved.link, CELLS
#define ROOM proved.mark, CELLS, proved.cost, CELLS, proved.trail, CELLS

// The plan's call and its core; what the core leaves is kept in `planned`.
static size_t plans(const State *s) {
    size_t a, b, head[SALENDURO_HEAD] = {WIDTH, HEIGHT, s->goal, s->cell, 0};
    restore(&proved, s);
    TIME(took[CORE], b, probe_core(HEAD, KEPT, ROOM, heap, CELLS + 3, place, CELLS, gone, CELLS, list, CELLS));
    planned = proved;
    restore(&proved, s);
    TIME(took[CALL], a, salenduro_buffers_plan(head, SALENDURO_HEAD, KEPT, ROOM));
    want(a == b && same_lists(&proved, &planned), "the call plan");
    TIME(took[ADVANCE], a, probe_advance(HEAD, KEPT));
    want(b == NO_WAY || a != proved.cell, "the core of move");
    return b;
}

static void soundness(const State *s) {
    size_t a, b;
    restore(&proved, s);
    TIME(took[FLAGS], b, (size_t)flags_sound(HEAD, proved.ground, proved.learned, proved.link));
    TIME(took[SOUND], a, probe_sound(HEAD, KEPT));
    want(a == 0 && b == 0, "a soundness test");
}

static size_t some_free_cell(const State *s) {
    size_t c = CELLS - 1;
    while (s->ground[c] || c == s->cell) c--;
    return c;
}

// The calls over a record. What the record holds after the plan is compared.
static void records(const State *s, size_t length) {
    static u8 before[RECORD], record[RECORD], other[RECORD], ground[CELLS], link_[CELLS];
    static u16 learned[CELLS];
    size_t cell = some_free_cell(s);
    uint32_t r, p, m;
    restore(&proved, s);
    u64 since = ticks();
    probe_block(HEAD, KEPT, cell);
    took[BLOCK] = ticks() - since;
    codec_write(WIDTH, HEIGHT, s->goal, s->cell, s->ground, s->learned, s->link, before);
    since = ticks();
    codec_read(before, CELLS, ground, learned, link_);
    codec_write(WIDTH, HEIGHT, s->goal, s->cell, ground, learned, link_, record);
    took[CODEC] = ticks() - since;
    want(!memcmp(before, record, RECORD), "the codec");
    TIME(took[RECORD_REPORT], r, salenduro_report(record, RECORD, (uint32_t)cell));
    memcpy(record, before, RECORD);
    TIME(took[RECORD_PLAN], p, salenduro_plan(record, RECORD));
    codec_write(WIDTH, HEIGHT, s->goal, s->cell, s->ground, planned.learned, planned.link, other);
    want(r == 0 && p == length && !memcmp(record, other, RECORD), "a call over a record");
    TIME(took[RECORD_MOVE], m, salenduro_move(record, RECORD));
    want(p == SALENDURO_NO_WAY || m < CELLS, "a move over a record");
}

// Three passes over the states, of which a state's median counts.
static void round_of(const char *kind, size_t plot, size_t round, const State *states, size_t count) {
    static u64 passes[3][MOST_STATES][WORKS];
    u64 sum[WORKS] = {0};
    for (int pass = 0; pass < 3; pass++)
        for (size_t i = 0; i < count; i++) {
            size_t length = plans(&states[i]);
            soundness(&states[i]);
            records(&states[i], length);
            memcpy(passes[pass][i], took, sizeof took);
        }
    for (size_t i = 0; i < count; i++)
        for (int w = 0; w < WORKS; w++) sum[w] += median3(passes[0][i][w], passes[1][i][w], passes[2][i][w]);
    printf("call\t%s\t%zu\t%zu\t%zu", kind, plot, round, count);
    for (int w = 0; w < WORKS; w++) printf("\t%s=%llu", works[w], (unsigned long long)sum[w]);
    printf("\n");
}

// The same states for single calls and for replans.
static void measure(const char *kind, size_t plot, const Drive *d, size_t rounds) {
    static State states[MOST_STATES];
    size_t count = states_of(d, states, MOST_STATES);
    for (size_t r = 0; r < rounds; r++) round_of(kind, plot, r, states, count);
    measure_replans(kind, plot, states, count, rounds);
}

// In turn, for the one is compared with the other.
static void serpentines(size_t rounds) {
    static Plot plot;
    Drive whole, cut;
    serpentine(&plot);
    log_search(&plot, &whole);
    log_cut(&plot, plot.goal + 1, &cut);
    for (size_t r = 0; r < rounds; r++) {
        measure("serpentine", r, &whole, 1);
        measure("serpentine, cut", r, &cut, 1);
    }
    free_drive(&whole);
    free_drive(&cut);
}

void measure_calls(size_t plots, size_t rounds) {
    static Plot plot;
    Drive d;
    for (size_t k = 0; k < kind_count; k++)
        for (size_t p = 0; p < plots; p++) {
            draw_plot(&kinds[k], 48, &plot);
            log_drive(&plot, &d);
            measure(kinds[k].name, p, &d, (rounds + 2) / 3);
            free_drive(&d);
        }
    serpentines(2 * rounds);
}
