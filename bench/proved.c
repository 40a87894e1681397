// The proved library as two contestants: its calls over a host's own buffers, each with the test over all cells, and its cores,
// which crates in Rattle use that have shown their data to be sound. Both keep what they learn for the whole of a drive.
#include "../include/salenduro.h"
#include "bench.h"
#include "contestants.h"

static size_t head[SALENDURO_HEAD];
static State call, core;
static u64 heap[CELLS + 3];
static u16 place[CELLS], list[CELLS];
static u8 gone[CELLS];
static size_t width, height;

#define HEAD head, SALENDURO_HEAD
#define KEPT(s) (s).ground, CELLS, (s).learned, CELLS, (s).link, CELLS
#define ROOM(s) (s).mark, CELLS, (s).cost, CELLS, (s).trail, CELLS
#define PLACED width, height, core.goal, core.cell

void call_lay_out(size_t w, size_t h, size_t start, size_t goal) {
    salenduro_buffers_layout(w, h, start, goal, HEAD, KEPT(call));
}

void call_report(size_t cell) { salenduro_buffers_report(HEAD, KEPT(call), cell); }

size_t call_plan(void) { return salenduro_buffers_plan(HEAD, KEPT(call), ROOM(call)); }

void call_move(size_t cell) {
    (void)cell;
    salenduro_buffers_move(HEAD, KEPT(call));
}

const State *call_state(void) {
    call.goal = head[SALENDURO_GOAL];
    call.cell = head[SALENDURO_CELL];
    call.expanded = head[SALENDURO_EXPANDED];
    return &call;
}

void core_lay_out(size_t w, size_t h, size_t start, size_t goal) {
    size_t unused[SALENDURO_HEAD];
    width = w, height = h;
    core.goal = goal, core.cell = start;
    salenduro_buffers_layout(w, h, start, goal, unused, SALENDURO_HEAD, KEPT(core));
}

void core_report(size_t cell) { probe_block(PLACED, KEPT(core), cell); }

size_t core_plan(void) { return probe_core(PLACED, KEPT(core), ROOM(core), heap, CELLS + 3, place, CELLS, gone, CELLS, list, CELLS); }

void core_move(size_t cell) {
    (void)cell;
    core.cell = probe_advance(PLACED, KEPT(core));
}

// (the cores' count of expanded cells is that of the marks)
const State *core_state(void) {
    core.expanded = 0;
    for (size_t c = 0; c < CELLS; c++) core.expanded += core.mark[c] == 2;
    return &core;
}
