// Replans without the test, on the states in which drives planned: the proved core with its working space lent and its own, the
// C++ heap, and the C++ heap made to clear its working space too. First in passing: in a round each goes over all states of a
// plot by itself, as a drive does. Then repeated: the least of some times on each state, when caches and branches know it; there
// all lists are compared too.
#include "bench.h"
#include "timing.h"
#include <stdio.h>

enum { CORE, OWN, HEAP, CLEARED, WORKS };
static const char *const works[WORKS] = {"core", "own", "heap", "cleared"};

static State after[WORKS];
static u64 heap[CELLS + 3];
static u16 place[CELLS], list[CELLS];
static u8 gone[CELLS];

#define HEAD WIDTH, HEIGHT, s->goal, s->cell
#define KEPT s->ground, CELLS, s->learned, CELLS, s->link, CELLS
#define ROOM s->mark, CELLS, s->cost, CELLS, s->trail, CELLS

// The ticks of one plan of that state, and its length.
static u64 replan(int work, const State *from, size_t *length) {
    State *s = &after[work];
    u64 took = 0;
    restore(s, from);
    switch (work) {
    case CORE: TIME(took, *length, probe_core(HEAD, KEPT, ROOM, heap, CELLS + 3, place, CELLS, gone, CELLS, list, CELLS)); break;
    case OWN: TIME(took, *length, probe_own(HEAD, KEPT, ROOM)); break;
    case HEAP: TIME(took, *length, heap_plan(WIDTH, HEIGHT, s)); break;
    case CLEARED: TIME(took, *length, heap_plan_cleared(WIDTH, HEIGHT, s)); break;
    }
    return took;
}

// Each over all states by itself, three passes, of which a state's median counts.
static void in_passing(const State *states, size_t count, size_t round, u64 sum[WORKS]) {
    static u64 took[3][MOST_STATES];
    size_t lengths[WORKS];
    for (size_t k = 0; k < WORKS; k++) {
        int w = (int)((k + round) % WORKS);
        sum[w] = lengths[w] = 0;
        for (int pass = 0; pass < 3; pass++)
            for (size_t i = 0; i < count; i++) {
                size_t length = 0;
                took[pass][i] = replan(w, &states[i], &length);
                lengths[w] += length;
            }
        for (size_t i = 0; i < count; i++) sum[w] += median3(took[0][i], took[1][i], took[2][i]);
    }
    for (int w = 0; w < WORKS; w++) want(lengths[w] == lengths[HEAP], works[w]);
}

static void repeat(const State *s, u64 sum[WORKS]) {
    enum { TIMES = 15 };
    u64 least[WORKS] = {UINT64_MAX, UINT64_MAX, UINT64_MAX, UINT64_MAX};
    size_t length[WORKS];
    for (int k = 0; k < TIMES; k++)
        for (int w = 0; w < WORKS; w++) {
            u64 took = replan(w, s, &length[w]);
            if (took < least[w]) least[w] = took;
        }
    for (int w = 0; w < WORKS; w++) {
        want(length[w] == length[HEAP] && same_lists(&after[w], &after[HEAP]), works[w]);
        sum[w] += least[w];
    }
}

static void print(const char *what, const char *kind, size_t plot, size_t round, size_t count, const u64 sum[WORKS]) {
    printf("%s\t%s\t%zu\t%zu\t%zu", what, kind, plot, round, count);
    for (int w = 0; w < WORKS; w++) printf("\t%s=%llu", works[w], (unsigned long long)sum[w]);
    printf("\n");
}

void measure_replans(const char *kind, size_t plot, const State *states, size_t count, size_t rounds) {
    for (size_t r = 0; r < rounds; r++) {
        u64 sum[WORKS];
        in_passing(states, count, r, sum);
        print("replan", kind, plot, r, count, sum);
    }
    for (size_t r = 0; r < rounds; r++) {
        u64 sum[WORKS] = {0};
        for (size_t i = 0; i < count; i++) repeat(&states[i], sum);
        print("repeated", kind, plot, r, count, sum);
    }
}
