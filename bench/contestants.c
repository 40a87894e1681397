// Who is run over the drives. The first is what the others are compared with.
#include "contestants.h"

#define CALLS(who) who##_lay_out, who##_report, who##_plan, who##_move

const Contestant contestants[] = {
    {"call", CALLS(call), call_state},
    {"core", CALLS(core), core_state},
    {"adaptive", CALLS(adaptive), adaptive_state},
    {"astar", CALLS(astar), 0},
    {"dstar", CALLS(dstar), 0},
#ifdef WITH_TCOD
    {"tcod", CALLS(tcod), 0},
#endif
#ifdef WITH_BOOST
    {"boost", CALLS(boost), 0},
#endif
};
const size_t contestant_count = sizeof contestants / sizeof *contestants;
