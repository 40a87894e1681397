// A peer: Boost's astar_search from scratch at each plan, over a graph that is not stored: the free neighbours of a cell. The
// search is ended as Boost's manual has it, by an exception at the goal. It checks nothing.
#include "../bench.h"
#include <boost/graph/astar_search.hpp>
#include <boost/graph/graph_traits.hpp>
#include <boost/iterator/counting_iterator.hpp>
#include <boost/iterator/iterator_facade.hpp>
#include <boost/property_map/property_map.hpp>
#include <cstdlib>
#include <cstring>

namespace {

struct Grid {
    size_t width, cells;
    u8 ground[CELLS];
};

typedef std::pair<size_t, size_t> Edge;

// The steps from a cell to its free neighbours; direction 5 is the end.
class Steps : public boost::iterator_facade<Steps, Edge, boost::forward_traversal_tag, Edge> {
public:
    Steps() = default;
    Steps(const Grid &g, size_t c, int d) : grid(&g), cell(c), direction(d) { skip(); }

private:
    friend class boost::iterator_core_access;
    const Grid *grid = nullptr;
    size_t cell = 0, to = 0;
    int direction = 5;

    bool free_there() {
        size_t w = grid->width, column = (uint32_t)cell % (uint32_t)w;
        bool inside = false;
        switch (direction) {
        case 1: inside = column + 1 < w, to = cell + 1; break;
        case 2: inside = cell + w < grid->cells, to = cell + w; break;
        case 3: inside = column > 0, to = cell - 1; break;
        case 4: inside = cell >= w, to = cell - w; break;
        }
        return inside && !grid->ground[to];
    }
    void skip() {
        while (direction < 5 && !free_there()) direction++;
    }
    void increment() { direction++, skip(); }
    bool equal(const Steps &other) const { return direction == other.direction; }
    Edge dereference() const { return {cell, to}; }
};

struct Shape : boost::incidence_graph_tag, boost::vertex_list_graph_tag {};

} // namespace

namespace boost {
template <> struct graph_traits<Grid> {
    typedef size_t vertex_descriptor;
    typedef Edge edge_descriptor;
    typedef Steps out_edge_iterator;
    typedef counting_iterator<size_t> vertex_iterator;
    typedef directed_tag directed_category;
    typedef disallow_parallel_edge_tag edge_parallel_category;
    typedef Shape traversal_category;
    typedef size_t vertices_size_type;
    typedef size_t edges_size_type;
    typedef size_t degree_size_type;
};
} // namespace boost

namespace {

size_t source(const Edge &e, const Grid &) { return e.first; }
size_t target(const Edge &e, const Grid &) { return e.second; }
std::pair<Steps, Steps> out_edges(size_t c, const Grid &g) { return {Steps(g, c, 1), Steps(g, c, 5)}; }
[[maybe_unused]] size_t out_degree(size_t c, const Grid &g) { return (size_t)std::distance(Steps(g, c, 1), Steps(g, c, 5)); }
std::pair<boost::counting_iterator<size_t>, boost::counting_iterator<size_t>> vertices(const Grid &g) {
    return {boost::counting_iterator<size_t>(0), boost::counting_iterator<size_t>(g.cells)};
}
[[maybe_unused]] size_t num_vertices(const Grid &g) { return g.cells; }

Grid grid;
size_t cart, goal;
size_t before[CELLS];
int cost[CELLS], rank_[CELLS], distance_[CELLS];
boost::default_color_type color[CELLS];
u16 route[CELLS];

struct Manhattan : boost::astar_heuristic<Grid, int> {
    int operator()(size_t c) const { return distance_[c]; }
};

struct Found {};
struct Ends : boost::default_astar_visitor {
    void examine_vertex(size_t c, const Grid &) const {
        if (c == goal) throw Found();
    }
};

size_t lay_route() {
    size_t length = 0;
    for (size_t c = goal; c != cart; c = before[c]) route[length++] = (u16)c;
    return length;
}

} // namespace

extern "C" void boost_lay_out(size_t w, size_t h, size_t start, size_t to) {
    grid.width = w, grid.cells = w * h, cart = start, goal = to;
    memset(grid.ground, 0, sizeof grid.ground);
    for (size_t c = 0; c < w * h; c++)
        distance_[c] = std::abs((int)(c / w) - (int)(to / w)) + std::abs((int)(c % w) - (int)(to % w));
}

extern "C" void boost_report(size_t c) { grid.ground[c] = 1; }

extern "C" size_t boost_plan() {
    boost::typed_identity_property_map<size_t> index;
    try {
        boost::astar_search(grid, cart, Manhattan(), Ends(), boost::make_iterator_property_map(before, index),
                            boost::make_iterator_property_map(rank_, index), boost::make_iterator_property_map(cost, index),
                            boost::static_property_map<int>(1), index, boost::make_iterator_property_map(color, index), std::less<int>(),
                            boost::closed_plus<int>(), std::numeric_limits<int>::max(), 0);
    } catch (Found) {
        return lay_route();
    }
    return NO_WAY;
}

extern "C" void boost_move(size_t c) { cart = c; }
