// Milliseconds of LEMON's and Boost's push-relabel on the DIMACS texts that are named, each the least of three. A line for each text.
#define LEMON_ONLY_TEMPLATES
#include <lemon/preflow.h>
#include <lemon/smart_graph.h>

#include <boost/graph/adjacency_list.hpp>
#include <boost/graph/push_relabel_max_flow.hpp>

#include <algorithm>
#include <chrono>
#include <cstdio>
#include <fstream>
#include <sstream>
#include <string>
#include <vector>

struct Arc {
    int tail, head;
    long long capacity;
};

struct Table {
    int n = 0, s = 0, t = 0;
    std::vector<Arc> arcs;
};

// The table of a text that is known to be good.
static Table read(const char *name) {
    Table table;
    std::ifstream file(name);
    std::string line;
    while (std::getline(file, line)) {
        std::istringstream fields(line);
        std::string letter, word;
        fields >> letter;
        if (letter == "p") fields >> word >> table.n;
        if (letter == "n") {
            int node;
            fields >> node >> word;
            (word == "s" ? table.s : table.t) = node - 1;
        }
        if (letter == "a") {
            Arc arc;
            fields >> arc.tail >> arc.head >> arc.capacity;
            table.arcs.push_back({arc.tail - 1, arc.head - 1, arc.capacity});
        }
    }
    return table;
}

// The least milliseconds of three calls.
template <class Call> static double least(Call call) {
    double best = 1e300;
    for (int time = 0; time < 3; time++) {
        auto began = std::chrono::steady_clock::now();
        call();
        best = std::min(best, std::chrono::duration<double, std::milli>(std::chrono::steady_clock::now() - began).count());
    }
    return best;
}

// LEMON's value: the graph is built outside the clock, the run with flow and cut inside.
static double by_lemon(const Table &table, long long &value) {
    lemon::SmartDigraph graph;
    std::vector<lemon::SmartDigraph::Node> nodes;
    for (int i = 0; i < table.n; i++) nodes.push_back(graph.addNode());
    lemon::SmartDigraph::ArcMap<long long> capacity(graph);
    for (const Arc &arc : table.arcs) capacity[graph.addArc(nodes[arc.tail], nodes[arc.head])] = arc.capacity;
    return least([&] {
        lemon::Preflow<lemon::SmartDigraph, lemon::SmartDigraph::ArcMap<long long>> preflow(graph, capacity, nodes[table.s], nodes[table.t]);
        preflow.run();
        value = preflow.flowValue();
    });
}

// Boost's value, in the same way.
static double by_boost(const Table &table, long long &value) {
    using namespace boost;
    using Traits = adjacency_list_traits<vecS, vecS, directedS>;
    using Graph = adjacency_list<vecS, vecS, directedS, no_property,
                                 property<edge_capacity_t, long long,
                                          property<edge_residual_capacity_t, long long, property<edge_reverse_t, Traits::edge_descriptor>>>>;
    Graph graph(table.n);
    auto capacity = get(edge_capacity, graph);
    auto reverse = get(edge_reverse, graph);
    for (const Arc &arc : table.arcs) {
        auto there = add_edge(arc.tail, arc.head, graph).first;
        auto back = add_edge(arc.head, arc.tail, graph).first;
        capacity[there] = arc.capacity;
        capacity[back] = 0;
        reverse[there] = back;
        reverse[back] = there;
    }
    return least([&] { value = push_relabel_max_flow(graph, table.s, table.t); });
}

int main(int count, char **names) {
    std::printf("| text | value | LEMON, ms | Boost, ms |\n|---|---|---|---|\n");
    for (int k = 1; k < count; k++) {
        Table table = read(names[k]);
        long long one = 0, other = 0;
        double lemon = by_lemon(table, one), boost = by_boost(table, other);
        if (one != other) std::printf("LEMON's value is %lld and Boost's %lld\n", one, other);
        std::string name = names[k];
        std::printf("| %s | %lld | %.2f | %.2f |\n", name.substr(name.rfind('/') + 1).c_str(), one, lemon, boost);
    }
    return 0;
}
