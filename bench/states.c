// The states in which a logged drive planned.
#include "bench.h"
#include <stdio.h>
#include <stdlib.h>
#include <string.h>

// At most `room` of them, evenly over the drive, as the proved library comes upon them.
size_t states_of(const Drive *d, State *states, size_t room) {
    size_t count = 0, plan = 0, every = (d->plans + room - 1) / room;
    const Contestant *who = &contestants[0];
    who->lay_out(WIDTH, HEIGHT, d->plot.start, d->plot.goal);
    for (size_t k = 0; k < d->count; k++) {
        const Event *e = &d->events[k];
        if (e->call == PLAN && k >= d->before && plan++ % every == 0) states[count++] = *who->state();
        if (e->call == REPORT) who->report(e->cell);
        if (e->call == PLAN) who->plan();
        if (e->call == MOVE) who->move(e->cell);
    }
    return count;
}

// What a call is handed; scratch stays as it is.
void restore(State *to, const State *s) {
    to->goal = s->goal, to->cell = s->cell;
    memcpy(to->ground, s->ground, CELLS);
    memcpy(to->learned, s->learned, sizeof s->learned);
    memcpy(to->link, s->link, CELLS);
}

int same_lists(const State *a, const State *b) {
    return !memcmp(a->ground, b->ground, CELLS) && !memcmp(a->link, b->link, CELLS) && !memcmp(a->learned, b->learned, sizeof a->learned)
        && !memcmp(a->mark, b->mark, CELLS) && !memcmp(a->cost, b->cost, sizeof a->cost) && !memcmp(a->trail, b->trail, CELLS);
}

void want(int holds, const char *what) {
    if (holds) return;
    fprintf(stderr, "%s differs\n", what);
    exit(1);
}
