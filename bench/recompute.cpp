// The run of `rank` from scratch: after each batch all rounds are computed anew over the edges as
// they are then. It writes the lines that `bolt run rank GRAPH STREAM` writes, without the numbers
// of kept entries and of edges read, since it keeps none and reads all.
//
// It takes the texts that `bolt make` writes (every edge has the weight 1, and every edit fits),
// and stops at a line that isn't like that.
#include <algorithm>
#include <cstdint>
#include <cstdio>
#include <cstdlib>
#include <fstream>
#include <iostream>
#include <sstream>
#include <string>
#include <unordered_map>
#include <vector>

using Vertex = std::uint32_t;
using Rank = std::uint64_t;  // no rank is below 0, and no sum of them past 2^64

constexpr int ROUNDS = 10;
constexpr Rank FIRST = 1'000'000;
constexpr Rank BASE = 150'000;
constexpr Rank MOST = 1'000'000'000'000;

[[noreturn]] void stop(const std::string &why) {
    std::cerr << "recompute: " << why << "\n";
    std::exit(2);
}

// Directed edges by the vertex that they lead to. Each list of sources rises.
class Graph {
public:
    void set_vertices(Vertex count) {
        sources.resize(count);
        out_degree.resize(count);
    }

    Vertex vertices() const { return static_cast<Vertex>(sources.size()); }
    std::uint64_t edges() const { return count; }
    const std::vector<Vertex> &into(Vertex v) const { return sources[v]; }
    Vertex degree(Vertex u) const { return out_degree[u]; }

    void add(Vertex u, Vertex v) {
        auto place = place_of(u, v);
        if (place != sources[v].end() && *place == u) stop("an edge is added again");
        sources[v].insert(place, u);
        out_degree[u]++;
        count++;
    }

    void cut(Vertex u, Vertex v) {
        auto place = place_of(u, v);
        if (place == sources[v].end() || *place != u) stop("an edge is cut that isn't there");
        sources[v].erase(place);
        out_degree[u]--;
        count--;
    }

private:
    std::vector<Vertex>::iterator place_of(Vertex u, Vertex v) {
        if (u >= vertices() || v >= vertices()) stop("an edge of a vertex that isn't there");
        return std::lower_bound(sources[v].begin(), sources[v].end(), u);
    }

    std::vector<std::vector<Vertex>> sources;
    std::vector<Vertex> out_degree;
    std::uint64_t count = 0;
};

// The ranks after all rounds.
std::vector<Rank> ranks_of(const Graph &graph) {
    const Vertex n = graph.vertices();
    std::vector<Rank> ranks(n, FIRST), gives(n);
    for (int round = 0; round < ROUNDS; round++) {
        for (Vertex u = 0; u < n; u++) gives[u] = graph.degree(u) ? ranks[u] / graph.degree(u) : 0;
        for (Vertex v = 0; v < n; v++) {
            Rank sum = 0;
            for (Vertex u : graph.into(v)) sum += gives[u];
            ranks[v] = std::min(BASE + sum * 17 / 20, MOST);
        }
    }
    return ranks;
}

Graph read_graph(const char *name) {
    std::ifstream file(name);
    if (!file) stop(std::string("can't read ") + name);
    Graph graph;
    std::string line, word;
    while (std::getline(file, line)) {
        std::istringstream words(line);
        Vertex u, v;
        long weight;
        if (line.rfind("vertices ", 0) == 0) {
            words >> word >> v;
            graph.set_vertices(v);
        } else if (words >> u >> v >> weight && weight == 1) {
            graph.add(u, v);
        } else {
            stop("a line of the graph that bolt make doesn't write: " + line);
        }
    }
    return graph;
}

// The edits of a batch, and which of their edges were there before it.
struct Batch {
    std::unordered_map<std::uint64_t, bool> before;
    std::unordered_map<std::uint64_t, bool> now;

    void note(Vertex u, Vertex v, bool added) {
        const std::uint64_t pair = (std::uint64_t{u} << 32) | v;
        before.emplace(pair, !added);
        now[pair] = added;
    }

    std::size_t net(bool added) const {
        std::size_t count = 0;
        for (const auto &[pair, was] : before) count += was != added && now.at(pair) == added;
        return count;
    }
};

// Makes the edits up to the next `commit`. False at the end of the stream.
bool next_batch(std::istream &stream, Graph &graph, Batch &batch) {
    std::string line;
    while (std::getline(stream, line)) {
        if (line == "commit") return true;
        std::istringstream words(line);
        char sign;
        Vertex u, v;
        if (!(words >> sign >> u >> v) || (sign != '+' && sign != '-'))
            stop("a line of the stream that bolt make doesn't write: " + line);
        if (sign == '+') graph.add(u, v);
        else graph.cut(u, v);
        batch.note(u, v, sign == '+');
    }
    return false;
}

int main(int argc, char **argv) {
    std::ios::sync_with_stdio(false);
    if (argc < 3) stop("words: GRAPH STREAM [--show=all]");
    const bool show = argc > 3 && std::string(argv[3]) == "--show=all";
    Graph graph = read_graph(argv[1]);
    std::vector<Rank> ranks = ranks_of(graph);
    std::cout << "open vertices " << graph.vertices() << " edges " << graph.edges() << "\n";
    if (show)
        for (Vertex v = 0; v < graph.vertices(); v++)
            std::cout << "value " << v << " " << ranks[v] << "\n";
    std::ifstream stream(argv[2]);
    if (!stream) stop(std::string("can't read ") + argv[2]);
    std::uint64_t batches = 0;
    for (Batch batch; next_batch(stream, graph, batch); batch = Batch()) {
        std::vector<Rank> next = ranks_of(graph);
        std::cout << "batch " << ++batches << " accepted added " << batch.net(true) << " removed "
                  << batch.net(false) << " edges " << graph.edges() << "\n";
        if (show)
            for (Vertex v = 0; v < graph.vertices(); v++)
                if (next[v] != ranks[v]) std::cout << "set " << v << " " << next[v] << "\n";
        ranks.swap(next);
    }
    Rank total = 0;
    for (Rank rank : ranks) total += rank;
    std::cout << "total 0 " << total << "\nend accepted " << batches << " refused 0\n";
}
