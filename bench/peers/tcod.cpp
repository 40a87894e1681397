// A peer: libtcod's A* from scratch at each plan, four directions (a diagonal cost of 0). Its heuristic is its own, the distance
// as the crow flies. It checks nothing.
#include "../bench.h"
#include <libtcod/fov.h>
#include <libtcod/path.h>

namespace {

TCOD_Map *map;
TCOD_path_t path;
int width;
size_t cart, goal;

int column(size_t c) { return (int)c % width; }
int row(size_t c) { return (int)c / width; }

} // namespace

extern "C" void tcod_lay_out(size_t w, size_t h, size_t start, size_t to) {
    if (map) {
        TCOD_path_delete(path);
        TCOD_map_delete(map);
    }
    width = (int)w, cart = start, goal = to;
    map = TCOD_map_new((int)w, (int)h);
    TCOD_map_clear(map, true, true);
    path = TCOD_path_new_using_map(map, 0.0f);
}

extern "C" void tcod_report(size_t c) { TCOD_map_set_properties(map, column(c), row(c), false, false); }

extern "C" size_t tcod_plan() {
    bool found = TCOD_path_compute(path, column(cart), row(cart), column(goal), row(goal));
    return found ? (size_t)TCOD_path_size(path) : (size_t)NO_WAY;
}

extern "C" void tcod_move(size_t c) { cart = c; }
