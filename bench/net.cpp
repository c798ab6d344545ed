// Actors that are dealt out to threads once more, in C++: the yardstick of bench/run-threads. It plays what
// `chipfire run --dealt` plays, by the same steps, and writes the same bytes, for files that are right.
//
//     net GRAPH CHIPS RING WORKERS
//
// The actors are those of actors.hpp. A worker gives each of its own a turn, round by round; worker 0 polls the root
// after each of its rounds.

#include <atomic>
#include <cstdint>
#include <cstdlib>
#include <thread>
#include <vector>

#include "actors.hpp"

namespace {

// Where the actors of each worker begin, and where the last one's end: runs with about as many ends of edges each. A
// vertex counts its edges out, its edges in, and one more for its root edge.
std::vector<std::size_t> deal(const Graph& graph, std::size_t workers) {
    std::vector<std::uint64_t> ends(graph.vertices, 1);
    for (const Edge& edge : graph.edges) {
        ++ends[edge.tail];
        ++ends[edge.head];
    }
    const std::uint64_t all = graph.vertices + 2 * graph.edges.size();
    std::vector<std::size_t> begins;
    std::uint64_t before = 0;
    for (std::uint64_t v = 0; v < graph.vertices; ++v) {
        while (begins.size() < workers && before * workers >= begins.size() * all) begins.push_back(v);
        before += ends[v];
    }
    begins.resize(workers + 1, graph.vertices);
    return begins;
}

// The actors of one worker, and what all workers share.
struct Share {
    Words& words;
    std::vector<Actor>& actors;
    std::size_t first, last;
    std::atomic<bool>& stop;

    // A turn of each; the thread yields where none had anything to do.
    void one_round() const {
        std::uint64_t work = 0;
        for (std::size_t v = first; v < last; ++v) work += actors[v].turn(words);
        if (work == 0) std::this_thread::yield();
    }

    void work() const {
        while (!stop.load()) one_round();
    }

    void lead(Root& root) const {
        do one_round();
        while (!root.poll(words));
        stop.store(true);
    }
};

}  // namespace

int main(int count, char** words_given) {
    if (count != 5) stop("net GRAPH CHIPS RING WORKERS");
    const Graph graph = read_graph(words_given[1]);
    const std::vector<std::uint64_t> start = read_chips(words_given[2], graph.vertices);
    const std::uint64_t ring = std::strtoull(words_given[3], nullptr, 10);
    const std::size_t workers = std::strtoull(words_given[4], nullptr, 10);
    if (ring < 1 || ring > 64 || workers < 1 || workers > 64) stop("no such ring or workers");

    Words words(graph, start, ring);
    std::vector<Actor> actors = make_actors(graph);
    Root root(graph, start);
    std::atomic<bool> has_to_stop{false};

    const std::vector<std::size_t> begins = deal(graph, workers);
    std::vector<std::thread> threads;
    for (std::size_t i = 0; i < workers; ++i) {
        const Share share{words, actors, begins[i], begins[i + 1], has_to_stop};
        threads.emplace_back([share, i, &root] { i == 0 ? share.lead(root) : share.work(); });
    }
    for (std::thread& thread : threads) thread.join();
    return write_end(graph, start, root.finish(words));
}
