// LEMON's NetworkSimplex on one split of a case. The graph, the costs and the solver are made once for a case; a solve sets
// the supplies of the split and runs. Ceilings are given to it where one is below 4,000. 32-bit amounts and costs, which is its
// fastest form and holds every case.
#include <lemon/network_simplex.h>
#include <lemon/smart_graph.h>

#include <cstddef>
#include <cstdint>
#include <vector>

namespace {

using Graph = lemon::SmartDigraph;
using Simplex = lemon::NetworkSimplex<Graph, int, int>;

struct Solver {
    Graph graph;
    std::vector<Graph::Node> sources, terminals;
    Graph::ArcMap<int> cost, ceiling;
    Graph::NodeMap<int> supply;
    int made;
    Simplex *simplex;

    Solver(size_t m, size_t n, const int64_t *costs, const uint64_t *supplies, const uint64_t *demands,
           const uint64_t *ceilings)
        : cost(graph), ceiling(graph), supply(graph), made(0) {
        bool narrow = false;
        for (size_t i = 0; i < m; i++) sources.push_back(graph.addNode());
        for (size_t j = 0; j < n; j++) terminals.push_back(graph.addNode());
        for (size_t i = 0; i < m; i++)
            for (size_t j = 0; j < n; j++) {
                Graph::Arc lane = graph.addArc(sources[i], terminals[j]);
                cost[lane] = int(costs[i * n + j]);
                ceiling[lane] = int(ceilings[i * n + j]);
                narrow |= ceilings[i * n + j] < 4000;
            }
        for (size_t j = 0; j < n; j++) {
            supply[terminals[j]] = -int(demands[j]);
            made += int(demands[j]);
        }
        for (size_t i = 2; i < m; i++) {
            supply[sources[i]] = int(supplies[i]);
            made -= int(supplies[i]);
        }
        simplex = new Simplex(graph);
        simplex->costMap(cost);
        if (narrow) simplex->upperMap(ceiling);
    }

    ~Solver() { delete simplex; }
};

}  // namespace

extern "C" {

void *lemon_new(size_t m, size_t n, const int64_t *costs, const uint64_t *supplies, const uint64_t *demands,
                const uint64_t *ceilings) {
    return new Solver(m, n, costs, supplies, demands, ceilings);
}

// The least freight at split y, or INT64_MIN.
int64_t lemon_split(void *solver, uint64_t y) {
    Solver &s = *static_cast<Solver *>(solver);
    s.supply[s.sources[0]] = int(y);
    s.supply[s.sources[1]] = s.made - int(y);
    s.simplex->supplyMap(s.supply);
    if (s.simplex->run() != Simplex::OPTIMAL) return INT64_MIN;
    return s.simplex->totalCost<int64_t>();
}

void lemon_free(void *solver) { delete static_cast<Solver *>(solver); }
}
