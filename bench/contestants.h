// The functions of the contestants (contestants.c lists them).
#ifndef CONTESTANTS_H
#define CONTESTANTS_H

#include "bench.h"

#define CONTESTANT(who)                                                         \
    void who##_lay_out(size_t width, size_t height, size_t start, size_t goal); \
    void who##_report(size_t cell);                                             \
    size_t who##_plan(void);                                                    \
    void who##_move(size_t cell)

CONTESTANT(call);
CONTESTANT(core);
CONTESTANT(adaptive);
CONTESTANT(astar);
CONTESTANT(dstar);
CONTESTANT(tcod);
CONTESTANT(boost);
const State *call_state(void);
const State *core_state(void);
const State *adaptive_state(void);

#endif
