// Logs drives with the proved library, over buffers of this file's own. What is logged is document 01's drive: look at the four
// neighbours and report those that are blocked and not known to be, end on the goal, plan where no route stands, move.
#include "../include/salenduro.h"
#include "bench.h"
#include <stdio.h>
#include <stdlib.h>
#include <string.h>

static size_t head[SALENDURO_HEAD];
static u8 ground[CELLS], link_[CELLS], mark[CELLS], trail[CELLS];
static u16 learned[CELLS], cost[CELLS];

#define HEAD head, SALENDURO_HEAD
#define KEPT ground, CELLS, learned, CELLS, link_, CELLS

static void add(Drive *d, Call call, size_t cell) {
    enum { STEP = 4096 };
    if (d->count % STEP == 0) d->events = realloc(d->events, (d->count + STEP) * sizeof *d->events);
    if (!d->events) abort();
    d->events[d->count++] = (Event){call, (u16)cell};
    d->plans += call == PLAN;
}

static void begin(const Plot *plot, Drive *d) {
    memset(d, 0, sizeof *d);
    d->plot = *plot;
    salenduro_buffers_layout(WIDTH, HEIGHT, plot->start, plot->goal, HEAD, KEPT);
}

static void report(Drive *d, size_t cell) {
    add(d, REPORT, cell);
    salenduro_buffers_report(HEAD, KEPT, cell);
}

static size_t plan(Drive *d) {
    size_t length = salenduro_buffers_plan(HEAD, KEPT, mark, CELLS, cost, CELLS, trail, CELLS);
    add(d, PLAN, length);
    return length;
}

static void look(Drive *d) {
    for (int k = 1; k <= 4; k++) {
        size_t c = beside(head[SALENDURO_CELL], k);
        if (c < CELLS && d->plot.truth[c] && !ground[c]) report(d, c);
    }
}

void log_drive(const Plot *plot, Drive *d) {
    begin(plot, d);
    for (;;) {
        look(d);
        if (head[SALENDURO_CELL] == plot->goal) return;
        uint32_t cell = salenduro_buffers_move(HEAD, KEPT);
        if (cell >= SALENDURO_REFUSED) {
            if (plan(d) == SALENDURO_NO_WAY) return;
            cell = salenduro_buffers_move(HEAD, KEPT);
        }
        add(d, MOVE, cell);
    }
}

void log_search(const Plot *plot, Drive *d) {
    begin(plot, d);
    for (size_t c = 0; c < CELLS; c++)
        if (plot->truth[c]) report(d, c);
    d->before = d->count;
    plan(d);
}

void log_cut(const Plot *plot, size_t cell, Drive *d) {
    log_search(plot, d);
    report(d, cell);
    d->before = d->count;
    plan(d);
}

void free_drive(Drive *d) { free(d->events); }
