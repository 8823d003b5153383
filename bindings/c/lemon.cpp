// The least-cost flow of random networks against the network simplex of LEMON: for each flow on the named arc the least cost of the rest, and the
// table's entry. Prints how many agree, or the first network that does not.
#include "yadvorkhul.h"
#include <lemon/list_graph.h>
#include <lemon/network_simplex.h>
#include <cstdio>
#include <cstdlib>
#include <random>
#include <string>
#include <vector>

using lemon::ListDigraph;

struct Arc {
    int start, end;
    int64_t ceiling, cost;
};

struct Network {
    std::vector<int64_t> supplies;
    std::vector<Arc> arcs;
    size_t named;
    std::vector<uint64_t> table;
};

struct Best {
    bool found = false;
    int64_t total = 0, on_named = 0;
};

static Best by_simplex(const Network &network) {
    Best best;
    for (int64_t x = 0; x <= network.arcs[network.named].ceiling; x++) {
        ListDigraph graph;
        std::vector<ListDigraph::Node> nodes;
        for (size_t v = 0; v < network.supplies.size(); v++) nodes.push_back(graph.addNode());
        ListDigraph::ArcMap<int64_t> ceilings(graph), costs(graph);
        ListDigraph::NodeMap<int64_t> supplies(graph);
        for (size_t v = 0; v < nodes.size(); v++) supplies[nodes[v]] = network.supplies[v];
        for (size_t k = 0; k < network.arcs.size(); k++) {
            const Arc &arc = network.arcs[k];
            if (k == network.named) {
                supplies[nodes[arc.start]] -= x;
                supplies[nodes[arc.end]] += x;
                continue;
            }
            ListDigraph::Arc made = graph.addArc(nodes[arc.start], nodes[arc.end]);
            ceilings[made] = arc.ceiling;
            costs[made] = arc.cost;
        }
        int64_t sum = 0;
        for (int64_t supply : network.supplies) sum += supply;
        if (sum != 0) return best;
        lemon::NetworkSimplex<ListDigraph, int64_t, int64_t> simplex(graph);
        simplex.upperMap(ceilings).costMap(costs).supplyMap(supplies);
        if (simplex.run() != simplex.OPTIMAL) continue;
        int64_t total = simplex.totalCost<int64_t>() + int64_t(network.table[x]);
        if (!best.found || total < best.total) best = {true, total, x};
    }
    return best;
}

static std::string file_of(const Network &network) {
    std::string text = "p min " + std::to_string(network.supplies.size()) + " " + std::to_string(network.arcs.size()) + "\n";
    for (size_t v = 0; v < network.supplies.size(); v++)
        if (network.supplies[v]) text += "n " + std::to_string(v + 1) + " " + std::to_string(network.supplies[v]) + "\n";
    for (const Arc &arc : network.arcs)
        text += "a " + std::to_string(arc.start + 1) + " " + std::to_string(arc.end + 1) + " 0 " + std::to_string(arc.ceiling) + " " + std::to_string(arc.cost) + "\n";
    return text;
}

static int64_t drawn(std::mt19937_64 &random, int64_t low, int64_t high) { return low + int64_t(random() % uint64_t(high - low + 1)); }

// The supplies are those of some flow, but for one network in eight.
static Network network_of(std::mt19937_64 &random, int nodes, int arcs, int64_t most, int64_t cost) {
    Network network;
    network.supplies.assign(nodes, 0);
    for (int k = 0; k < arcs; k++) {
        int start = int(drawn(random, 0, nodes - 1)), end = (start + int(drawn(random, 1, nodes - 1))) % nodes;
        int64_t ceiling = drawn(random, 0, most), x = drawn(random, 0, ceiling);
        network.arcs.push_back({start, end, ceiling, drawn(random, -cost, cost)});
        network.supplies[start] += x;
        network.supplies[end] -= x;
    }
    if (drawn(random, 0, 7) == 0) {
        network.supplies[drawn(random, 0, nodes - 1)] += 1;
        network.supplies[drawn(random, 0, nodes - 1)] -= 1;
    }
    network.named = size_t(drawn(random, 0, arcs - 1));
    for (int64_t x = 0; x <= network.arcs[network.named].ceiling; x++) network.table.push_back(uint64_t(drawn(random, 0, 4 * cost)));
    return network;
}

// 0 where the answer is LEMON's, 1 where both find no flow; ends the program where they differ.
static int compared(const Network &network) {
    std::string file = file_of(network);
    uint64_t flow[64], starts[64], ends[64], ceilings[64], report[1];
    int64_t costs[64], worth[1];
    uint64_t number = yadvorkhul_flow((const uint8_t *)file.data(), file.size(), network.named + 1, network.table.data(), network.table.size(), flow, 64,
                                      starts, 64, ends, 64, ceilings, 64, costs, 64, report, 1, worth, 1);
    Best due = by_simplex(network);
    bool same = number == (due.found ? 0u : 27u);
    if (due.found && same) {
        std::vector<int64_t> left = network.supplies;
        int64_t total = 0;
        same = report[0] == network.arcs.size() && worth[0] == due.total && int64_t(flow[network.named]) == due.on_named;
        for (size_t k = 0; k < network.arcs.size(); k++) {
            const Arc &arc = network.arcs[k];
            int64_t x = int64_t(flow[k]);
            same = same && x <= arc.ceiling && int64_t(starts[k]) == arc.start + 1 && int64_t(ends[k]) == arc.end + 1 && int64_t(ceilings[k]) == arc.ceiling && costs[k] == arc.cost;
            left[arc.start] -= x;
            left[arc.end] += x;
            total += k == network.named ? int64_t(network.table[size_t(x)]) : arc.cost * x;
        }
        for (int64_t rest : left) same = same && rest == 0;
        same = same && total == due.total;
    }
    if (!same) {
        std::printf("differs: answer %llu, LEMON %s %lld with %lld on arc %zu of\n%s", (unsigned long long)number, due.found ? "finds" : "finds none,", (long long)due.total, (long long)due.on_named, network.named + 1, file.c_str());
        std::exit(1);
    }
    return due.found ? 0 : 1;
}

int main() {
    std::mt19937_64 random(211);
    int small[2] = {0, 0}, large[2] = {0, 0};
    for (int k = 0; k < 3000; k++) small[compared(network_of(random, int(drawn(random, 2, 6)), int(drawn(random, 1, 10)), 5, 6))]++;
    for (int k = 0; k < 200; k++) large[compared(network_of(random, 32, 64, k % 2 ? 30 : 300, 1000000))]++;
    std::printf("small networks: %d agree, %d without a flow; 32 nodes and 64 arcs: %d agree, %d without a flow\n", small[0], small[1], large[0], large[1]);
}
