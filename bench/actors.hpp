// The actors of a running net and its root, in C++: the same words in the same order as in chipfire's net, the same
// operations on them, all of them sequentially consistent, and the same order in a turn; seals and traces are left out.
#pragma once

#include <algorithm>
#include <atomic>
#include <cstdint>
#include <limits>
#include <memory>
#include <optional>
#include <vector>

#include "game_files.hpp"
#include "report.hpp"

namespace {

using Word = std::atomic<std::uint64_t>;

constexpr std::uint64_t halted_bit = std::uint64_t{1} << 63;
constexpr std::uint64_t by_limit_bit = std::uint64_t{1} << 62;
constexpr std::uint64_t no_edge = std::numeric_limits<std::uint64_t>::max();

// Where the words of a net lie: those of edges, those of acknowledgements, cells, those of vertices. The root's edges
// stand after the graph's.
struct Words {
    std::uint64_t edges, ring;
    std::unique_ptr<Word[]> words;

    Words(const Graph& graph, const std::vector<std::uint64_t>& start, std::uint64_t cells)
        : edges(graph.edges.size() + graph.vertices), ring(cells),
          words(new Word[edges * (2 + ring) + graph.vertices]()) {
        for (std::uint64_t v = 0; v < graph.vertices; ++v) {
            if (start[v] == 0) continue;
            const std::uint64_t edge = graph.edges.size() + v;
            claims(edge) = 1;
            cell(edge, 0) = start[v];
        }
    }

    Word& claims(std::uint64_t edge) { return words[edge]; }
    Word& acknowledged(std::uint64_t edge) { return words[edges + edge]; }
    Word& cell(std::uint64_t edge, std::uint64_t place) { return words[2 * edges + edge * ring + place]; }
    Word& fired(std::uint64_t vertex) { return words[(2 + ring) * edges + vertex]; }
};

// An edge into a vertex.
struct In {
    std::uint64_t edge;
    std::uint64_t cell = 0;     // of the next message
    std::uint64_t owed = 0;     // messages that were taken and not acknowledged
};

// An edge out of a vertex.
struct Out {
    std::uint64_t edge, mult;
    std::uint64_t pending = 0;  // chips of the last batch that are still to be sent
    std::uint64_t claims = 0;
    std::uint64_t cell = 0;     // of the next message
    std::uint64_t settled = 0;
};

class Actor {
public:
    Actor(std::uint64_t vertex, bool is_sink) : vertex_(vertex), is_sink_(is_sink) {}

    void make_room(std::size_t ins, std::size_t outs) {
        ins_.reserve(ins);
        outs_.reserve(outs);
    }

    void add_in(std::uint64_t edge) { ins_.push_back({edge}); }

    void add_out(std::uint64_t edge, std::uint64_t mult) {
        outs_.push_back({edge, mult});
        degree_ += mult;
    }

    // A turn; how many of its steps count as work.
    std::uint64_t turn(Words& words) {
        std::uint64_t work = take(words) + settle(words) + fire(words);
        if (!is_halted_) work += send(words) + halt_by_limit(words);
        return work + acknowledge_all(words);
    }

private:
    bool is_legal() const { return !is_sink_ && chips_ >= degree_; }
    bool is_passive() const { return is_halted_ || (pending_ == 0 && !is_legal()); }

    std::uint64_t take(Words& words) {
        std::uint64_t work = 0;
        for (In& in : ins_) {
            const std::uint64_t chips = words.cell(in.edge, in.cell).exchange(0);
            if (chips == 0) continue;
            if (++in.cell == words.ring) in.cell = 0;
            ++in.owed;
            ++owed_;
            chips_ += chips;
            if (parent_ == no_edge) parent_ = in.edge;
            ++work;
        }
        return work;
    }

    std::uint64_t settle(Words& words) {
        std::uint64_t work = 0;
        for (Out& out : outs_) {
            const std::uint64_t acknowledged = words.acknowledged(out.edge).load();
            if (acknowledged == out.settled) continue;
            deficit_ -= acknowledged - out.settled;
            out.settled = acknowledged;
            ++work;
        }
        return work;
    }

    std::uint64_t fire(Words& words) {
        if (is_halted_ || pending_ != 0 || !is_legal() || fired_ == limit) return 0;
        const std::uint64_t batch = std::min(chips_ / degree_, limit - fired_);
        words.fired(vertex_).fetch_add(batch);
        pending_ = batch * degree_;
        chips_ -= pending_;
        fired_ += batch;
        for (Out& out : outs_) out.pending = batch * out.mult;
        return 1;
    }

    std::uint64_t send(Words& words) {
        std::uint64_t work = 0;
        for (Out& out : outs_) {
            if (out.pending == 0 || words.cell(out.edge, out.cell).load() != 0) continue;
            std::uint64_t claims = out.claims;
            if (!words.claims(out.edge).compare_exchange_strong(claims, out.claims + 1)) stop("an edge is sealed");
            ++out.claims;
            ++deficit_;
            words.cell(out.edge, out.cell).store(out.pending);
            if (++out.cell == words.ring) out.cell = 0;
            pending_ -= out.pending;
            out.pending = 0;
            work += 2;
        }
        return work;
    }

    std::uint64_t halt_by_limit(Words& words) {
        if (pending_ != 0 || !is_legal() || fired_ < limit) return 0;
        words.fired(vertex_).fetch_or(halted_bit | by_limit_bit);
        is_halted_ = true;
        return 1;
    }

    std::uint64_t may_acknowledge(const In& in) const {
        const bool is_done = owed_ == in.owed && is_passive() && deficit_ == 0;
        return in.edge == parent_ && !is_done ? in.owed - 1 : in.owed;
    }

    std::uint64_t acknowledge(Words& words, In& in) {
        const std::uint64_t count = may_acknowledge(in);
        if (count == 0) return 0;
        words.acknowledged(in.edge).fetch_add(count);
        in.owed -= count;
        owed_ -= count;
        if (in.edge == parent_ && in.owed == 0) parent_ = no_edge;
        return 1;
    }

    std::uint64_t acknowledge_all(Words& words) {
        if (parent_ == no_edge) return 0;
        std::uint64_t work = 0;
        for (In& in : ins_) work += acknowledge(words, in);
        const std::uint64_t parent = parent_;
        if (parent == no_edge) return work;
        const auto found = std::lower_bound(ins_.begin(), ins_.end(), parent,
                                            [](const In& in, std::uint64_t edge) { return in.edge < edge; });
        return work + acknowledge(words, *found);
    }

    static constexpr std::uint64_t limit = std::uint64_t{1} << 40;

    std::uint64_t vertex_;
    bool is_sink_, is_halted_ = false;
    std::uint64_t degree_ = 0, chips_ = 0, fired_ = 0, pending_ = 0;
    std::uint64_t owed_ = 0, deficit_ = 0, parent_ = no_edge;
    std::vector<In> ins_;
    std::vector<Out> outs_;
};

// The actors of all vertices. What each of them has lies side by side.
std::vector<Actor> make_actors(const Graph& graph) {
    std::vector<Actor> actors;
    std::vector<std::size_t> ins(graph.vertices, 1), outs(graph.vertices, 0);
    for (const Edge& edge : graph.edges) {
        ++outs[edge.tail];
        ++ins[edge.head];
    }
    for (std::uint64_t v = 0; v < graph.vertices; ++v) {
        actors.emplace_back(v, v == graph.sink);
        actors.back().make_room(ins[v], outs[v]);
    }
    for (std::uint64_t e = 0; e < graph.edges.size(); ++e) {
        const Edge& edge = graph.edges[e];
        actors[edge.tail].add_out(e, edge.mult);
        actors[edge.head].add_in(e);
    }
    for (std::uint64_t v = 0; v < graph.vertices; ++v) actors[v].add_in(graph.edges.size() + v);
    return actors;
}

// How often each vertex fired, and which ones the limit halted.
struct End {
    std::vector<std::uint64_t> fired, over;
};

class Root {
public:
    Root(const Graph& graph, const std::vector<std::uint64_t>& start)
        : first_(graph.edges.size()), settled_(graph.vertices, 0),
          outstanding_(start.size() - std::count(start.begin(), start.end(), 0)) {}

    // Looks at the acknowledgements of each root edge; whether the root is closed.
    bool poll(Words& words) {
        const Word* const words_of_root = &words.acknowledged(first_);
        std::uint64_t outstanding = outstanding_;
        for (std::uint64_t v = 0, vertices = settled_.size(); v < vertices; ++v) {
            const std::uint64_t acknowledged = words_of_root[v].load();
            if (acknowledged == settled_[v]) continue;
            outstanding -= acknowledged - settled_[v];
            settled_[v] = acknowledged;
        }
        outstanding_ = outstanding;
        return outstanding == 0;
    }

    // How the game ended, where the root is closed.
    std::optional<End> finish(Words& words) const {
        if (outstanding_ != 0) return std::nullopt;
        End end;
        for (std::uint64_t v = 0; v < settled_.size(); ++v) {
            const std::uint64_t word = words.fired(v).load();
            end.fired.push_back(word & (by_limit_bit - 1));
            if ((word & halted_bit) != 0) end.over.push_back(v);
        }
        return end;
    }

private:
    std::uint64_t first_;
    std::vector<std::uint64_t> settled_;
    std::uint64_t outstanding_;
};

// The chips that lie on the vertices once they have fired so often.
std::vector<std::uint64_t> chips_after(const Graph& graph, std::vector<std::uint64_t> chips,
                                       const std::vector<std::uint64_t>& fired) {
    for (const Edge& edge : graph.edges) {
        chips[edge.tail] -= fired[edge.tail] * edge.mult;
        chips[edge.head] += fired[edge.tail] * edge.mult;
    }
    return chips;
}

// Writes the report of a play that has ended; the status of the program.
int write_end(const Graph& graph, const std::vector<std::uint64_t>& start, const std::optional<End>& end) {
    if (!end) stop("the root is not closed");
    write_all(report(chips_after(graph, start, end->fired), end->fired, end->over));
    return end->over.empty() ? 0 : 2;
}

}  // namespace
