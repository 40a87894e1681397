// Runs every contestant over the same logged drives and searches. Once untimed, side by side: every plan length is compared, and
// between those of document 01's algorithm every list that a plan leaves. Then in rounds, one contestant after the other, timed.
#include "bench.h"
#include "timing.h"
#include <stdio.h>
#include <stdlib.h>
static void differ(const Contestant *who, const char *what, const char *kind, size_t plot, size_t plan) {
    fprintf(stderr, "%s: %s differs on %s, plot %zu, plan %zu\n", who->name, what, kind, plot, plan);
    exit(1);
}

static int same_state(const State *a, const State *b) { return a->cell == b->cell && a->expanded == b->expanded && same_lists(a, b); }

static size_t step(const Contestant *who, const Event *e) {
    switch (e->call) {
    case REPORT: who->report(e->cell); break;
    case PLAN: return who->plan();
    case MOVE: who->move(e->cell);
    }
    return 0;
}

// The cells that the timed plans of a drive would expand if nothing were kept from one to the next.
static size_t expanded_anew(const Drive *d) {
    static State fresh, s;
    size_t expanded = 0;
    size_t goal = d->plot.goal;
    fresh.goal = goal, fresh.cell = d->plot.start;
    for (size_t c = 0; c < CELLS; c++) {
        int rows = (int)(c / WIDTH) - (int)(goal / WIDTH), columns = (int)(c % WIDTH) - (int)(goal % WIDTH);
        fresh.ground[c] = 0;
        fresh.learned[c] = (u16)(abs(rows) + abs(columns));
    }
    for (size_t k = 0; k < d->count; k++) {
        const Event *e = &d->events[k];
        if (e->call == REPORT) fresh.ground[e->cell] = 1;
        if (e->call == MOVE) fresh.cell = e->cell;
        if (e->call != PLAN || k < d->before) continue;
        s = fresh;
        heap_plan(WIDTH, HEIGHT, &s);
        expanded += s.expanded;
    }
    return expanded;
}

static size_t waiting(const State *s) {
    size_t count = 0;
    for (size_t c = 0; c < CELLS; c++) count += s->mark[c] == 1;
    return count;
}

// Everyone side by side. Counted are the cells that the timed plans expand, and the most that waited when a plan ended.
static void compare(const Drive *d, const char *kind, size_t plot, size_t *expanded, size_t *most) {
    const Contestant *first = &contestants[0];
    size_t plan = 0;
    *expanded = *most = 0;
    for (size_t i = 0; i < contestant_count; i++) contestants[i].lay_out(WIDTH, HEIGHT, d->plot.start, d->plot.goal);
    for (size_t k = 0; k < d->count; k++) {
        const Event *e = &d->events[k];
        for (size_t i = 0; i < contestant_count; i++) {
            const Contestant *who = &contestants[i];
            size_t length = step(who, e);
            if (e->call == PLAN && length != e->cell) differ(who, "a plan length", kind, plot, plan);
            if (e->call == PLAN && who->state && !same_state(who->state(), first->state())) differ(who, "a list", kind, plot, plan);
            if (e->call == MOVE && who->state && who->state()->cell != e->cell) differ(who, "a move", kind, plot, plan);
        }
        if (e->call != PLAN) continue;
        plan++;
        if (k >= d->before) *expanded += first->state()->expanded;
        if (waiting(first->state()) > *most) *most = waiting(first->state());
    }
}

static u64 run(const Contestant *who, const Drive *d, u16 *lengths) {
    size_t k = 0, plan = 0;
    who->lay_out(WIDTH, HEIGHT, d->plot.start, d->plot.goal);
    for (; k < d->before; k++) {
        size_t length = step(who, &d->events[k]);
        if (d->events[k].call == PLAN) lengths[plan++] = (u16)length;
    }
    u64 t = nanoseconds();
    for (; k < d->count; k++) {
        size_t length = step(who, &d->events[k]);
        if (d->events[k].call == PLAN) lengths[plan++] = (u16)length;
    }
    return nanoseconds() - t;
}

// The ticks of each call of a drive. (Reading the clock counts in each, so that these are for plans, and for moves that walk.)
static void tick_calls(const Contestant *who, const Drive *d, u64 *took) {
    who->lay_out(WIDTH, HEIGHT, d->plot.start, d->plot.goal);
    for (size_t k = 0; k < d->count; k++) {
        u64 since = ticks();
        step(who, &d->events[k]);
        took[k] = ticks() - since;
    }
}

// Its reports, plans and moves apart: each call the median of three passes.
static void split(const Contestant *who, const Drive *d, u64 sum[3]) {
    u64 *took = malloc(3 * d->count * sizeof *took), *second = took + d->count, *third = second + d->count;
    if (!took) abort();
    for (int pass = 0; pass < 3; pass++) tick_calls(who, d, took + pass * d->count);
    sum[REPORT] = sum[PLAN] = sum[MOVE] = 0;
    for (size_t k = 0; k < d->count; k++) sum[d->events[k].call] += median3(took[k], second[k], third[k]);
    free(took);
}

static void measure_split(const char *kind, size_t plot, const Drive *d, size_t rounds) {
    for (size_t r = 0; r < rounds; r++)
        for (size_t i = 0; i < contestant_count; i++) {
            const Contestant *who = &contestants[(i + r) % contestant_count];
            u64 sum[3];
            split(who, d, sum);
            printf("plans\t%s\t%zu\t%zu\t%s\t%llu\n", kind, plot, r, who->name, (unsigned long long)sum[PLAN]);
            printf("moves\t%s\t%zu\t%zu\t%s\t%llu\n", kind, plot, r, who->name, (unsigned long long)sum[MOVE]);
        }
}

static void check_lengths(const Contestant *who, const Drive *d, const u16 *lengths, const char *kind, size_t plot) {
    size_t plan = 0;
    for (size_t k = 0; k < d->count; k++)
        if (d->events[k].call == PLAN && lengths[plan++] != d->events[k].cell) differ(who, "a plan length", kind, plot, plan - 1);
}

// A line on the drive, and one for each round and contestant. The one who begins a round goes round too.
static void measure(const char *what, const char *kind, size_t plot, const Drive *d, size_t rounds) {
    u16 *lengths = malloc((d->plans + 1) * sizeof *lengths);
    size_t reports = 0, moves = 0, plans = 0, expanded, most;
    compare(d, kind, plot, &expanded, &most);
    for (size_t k = d->before; k < d->count; k++) {
        reports += d->events[k].call == REPORT;
        moves += d->events[k].call == MOVE;
        plans += d->events[k].call == PLAN;
    }
    printf("%s-has\t%s\t%zu\t%zu\t%zu\t%zu\t%zu\t%zu\t%zu\n", what, kind, plot, plans, reports, moves, expanded, expanded_anew(d), most);
    for (size_t r = 0; r < rounds; r++)
        for (size_t i = 0; i < contestant_count; i++) {
            const Contestant *who = &contestants[(i + r) % contestant_count];
            u64 t = run(who, d, lengths);
            check_lengths(who, d, lengths, kind, plot);
            printf("%s\t%s\t%zu\t%zu\t%s\t%llu\n", what, kind, plot, r, who->name, (unsigned long long)t);
        }
    free(lengths);
}

static void wall_in(Plot *p) {
    for (int d = 1; d <= 4; d++) {
        size_t c = beside(p->goal, d);
        if (c < CELLS && c != p->start) p->truth[c] = 1;
    }
}

static void drives_of(const Kind *kind, size_t plots, size_t rounds) {
    for (size_t p = 0; p < plots; p++) {
        static Plot plot;
        Drive d;
        draw_plot(kind, 48, &plot);
        log_drive(&plot, &d);
        measure("drive", kind->name, p, &d, rounds);
        measure_split(kind->name, p, &d, (rounds + 2) / 3);
        free_drive(&d);
        log_search(&plot, &d);
        measure("search", kind->name, p, &d, 3 * rounds);
        free_drive(&d);
    }
}

void measure_drives(size_t plots, size_t rounds) {
    static Plot plot;
    Drive d;
    for (size_t k = 0; k < kind_count; k++) drives_of(&kinds[k], plots, rounds);
    serpentine(&plot);
    log_search(&plot, &d);
    measure("search", "serpentine", 0, &d, 6 * rounds);
    free_drive(&d);
    log_cut(&plot, plot.goal + 1, &d);
    measure("search", "serpentine, cut", 0, &d, 6 * rounds);
    free_drive(&d);
    for (size_t p = 0; p < plots; p++) {
        draw_plot(&kinds[0], 48, &plot);
        wall_in(&plot);
        log_search(&plot, &d);
        measure("search", "goal walled in", p, &d, 3 * rounds);
        free_drive(&d);
    }
}
