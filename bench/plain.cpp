// The plain player once more, in C++, on one thread: the yardstick of bench/run. It reads the same files and writes the
// same bytes as `chipfire plain GRAPH CHIPS`, for files that are right; of wrong ones it only says that they are wrong.
// With `drops` it is that of bench/drops, and writes the rows of `chipfire avalanches GRAPH CHIPS DROPS`.
//
//     plain list|passes|rounds GRAPH CHIPS [LIMIT]
//     plain drops GRAPH CHIPS DROPS
//
// `list` keeps the vertices that got chips in a first-in-first-out list. `passes` goes over all vertices in ascending
// order until a pass fires nothing, and divides by 64 bits only where it must; `rounds` does so first over those with
// even numbers and then over those with odd ones. `drops` keeps the vertices that may fire in a last-in-first-out list.
// All fire in batches.

#include <charconv>
#include <cstdint>
#include <cstdlib>
#include <limits>
#include <string_view>
#include <vector>

#include "game_files.hpp"
#include "report.hpp"

namespace {

// One edge out of a vertex. The edges of a vertex lie side by side.
struct Out {
    std::uint32_t head, mult;
};

struct Game {
    std::uint64_t sink;
    std::uint64_t limit;
    std::vector<std::uint32_t> first;    // where the edges out of each vertex begin, and at last their number
    std::vector<Out> outs;
    std::vector<std::uint64_t> degree;   // of the sink more than there are chips, so that it never may fire
    std::vector<std::uint64_t> chips;
    std::vector<std::uint64_t> fired;

    Game(const Graph& graph, std::vector<std::uint64_t> start, std::uint64_t most)
        : sink(graph.sink), limit(most), first(graph.vertices + 1, 0), outs(graph.edges.size()),
          degree(graph.vertices, 0), chips(std::move(start)), fired(graph.vertices, 0) {
        for (const Edge& edge : graph.edges) {
            ++first[edge.tail + 1];
            degree[edge.tail] += edge.mult;
        }
        for (std::uint64_t v = 0; v < graph.vertices; ++v) first[v + 1] += first[v];
        std::vector<std::uint32_t> next(first.begin(), first.end() - 1);
        for (const Edge& edge : graph.edges)
            outs[next[edge.tail]++] = {static_cast<std::uint32_t>(edge.head), static_cast<std::uint32_t>(edge.mult)};
        degree[sink] = std::numeric_limits<std::uint64_t>::max();
    }

    std::size_t vertices() const { return chips.size(); }

    bool is_legal(std::size_t v) const { return chips[v] >= degree[v]; }
};

void play_by_list(Game& game) {
    const std::size_t vertices = game.vertices();
    // Each vertex stands in the list at most once, so a ring with a place for each has room. Whether a vertex may fire
    // is asked where it leaves the list: asked before it is put there too, the grids take a third longer.
    std::vector<std::uint32_t> list(vertices);
    std::vector<char> is_listed(vertices, 0);
    std::size_t begin = 0, count = 0;
    const auto add = [&](std::size_t v) {
        if (is_listed[v] || v == game.sink) return;
        is_listed[v] = 1;
        const std::size_t at = begin + count++;
        list[at < vertices ? at : at - vertices] = static_cast<std::uint32_t>(v);
    };
    for (std::size_t v = 0; v < vertices; ++v) add(v);
    while (count != 0) {
        const std::size_t v = list[begin];
        begin = begin + 1 < vertices ? begin + 1 : 0;
        --count;
        is_listed[v] = 0;
        std::uint64_t batch = game.chips[v] / game.degree[v];
        if (batch > game.limit - game.fired[v]) batch = game.limit - game.fired[v];
        if (batch == 0) continue;
        game.chips[v] -= batch * game.degree[v];
        game.fired[v] += batch;
        for (std::uint32_t e = game.first[v]; e < game.first[v + 1]; ++e) {
            game.chips[game.outs[e].head] += batch * game.outs[e].mult;
            add(game.outs[e].head);
        }
    }
}

// How often `degree` goes into `chips`, which are at least that many.
inline std::uint64_t quotient(std::uint64_t chips, std::uint64_t degree) {
    if (chips < 2 * degree) return 1;
    if (((chips | degree) >> 32) == 0) return static_cast<std::uint32_t>(chips) / static_cast<std::uint32_t>(degree);
    return chips / degree;
}

// Fires what may fire among every `step`-th vertex from `first` on; whether any did.
bool pass(Game& game, std::size_t first, std::size_t step) {
    const std::size_t vertices = game.vertices();
    bool has_fired = false;
    for (std::size_t v = first; v < vertices; v += step) {
        if (!game.is_legal(v) || game.fired[v] == game.limit) continue;
        std::uint64_t batch = quotient(game.chips[v], game.degree[v]);
        if (batch > game.limit - game.fired[v]) batch = game.limit - game.fired[v];
        game.chips[v] -= batch * game.degree[v];
        game.fired[v] += batch;
        for (std::uint32_t e = game.first[v]; e < game.first[v + 1]; ++e)
            game.chips[game.outs[e].head] += batch * game.outs[e].mult;
        has_fired = true;
    }
    return has_fired;
}

void play_by_passes(Game& game) {
    while (pass(game, 0, 1)) {
    }
}

void play_by_rounds(Game& game) {
    for (bool has_fired = true; has_fired;) {
        has_fired = pass(game, 0, 2);
        has_fired |= pass(game, 1, 2);
    }
}

// Drops the chips of each row of a file, plays them, and writes what came.
void drop_all(Game& game, const char* path) {
    constexpr std::string_view header = "vertex,chips\n";
    const std::string text = read_file(path);
    if (text.compare(0, header.size(), header) != 0) stop("the drops have another header");
    std::vector<std::uint32_t> list, fired_at(game.vertices(), 0);
    std::string rows = "vertex,chips,size,extent,lost\n";
    std::uint32_t drop = 0;
    Cursor cursor(text);
    for (cursor.at += header.size(); !cursor.is_at_end(); cursor.expect('\n')) {
        const std::uint64_t vertex = cursor.number();
        cursor.expect(',');
        const std::uint64_t count = cursor.number();
        if (vertex >= game.vertices()) stop("a bad drop");
        game.chips[vertex] += count;
        const std::uint64_t before = game.chips[game.sink];
        std::uint64_t size = 0, extent = 0;
        ++drop;
        if (game.is_legal(vertex)) list.push_back(static_cast<std::uint32_t>(vertex));
        while (!list.empty()) {
            const std::uint32_t v = list.back();
            list.pop_back();
            const std::uint64_t batch = quotient(game.chips[v], game.degree[v]);
            game.chips[v] -= batch * game.degree[v];
            game.fired[v] += batch;
            size += batch;
            extent += fired_at[v] != drop;
            fired_at[v] = drop;
            for (std::uint32_t e = game.first[v]; e < game.first[v + 1]; ++e) {
                const Out out = game.outs[e];
                const bool was_legal = game.is_legal(out.head);
                game.chips[out.head] += batch * out.mult;
                if (!was_legal && game.is_legal(out.head)) list.push_back(out.head);
            }
        }
        char digits[5 * 21];
        char* end = digits;
        for (const std::uint64_t number : {vertex, count, size, extent, game.chips[game.sink] - before}) {
            end = std::to_chars(end, digits + sizeof digits, number).ptr;
            *end++ = ',';
        }
        end[-1] = '\n';
        rows.append(digits, end);
        if (rows.size() > 65536) write_all(rows), rows.clear();
    }
    write_all(rows);
}

}  // namespace

int main(int count, char** words) {
    const std::string_view way = count > 1 ? words[1] : "";
    const bool is_dropping = way == "drops" && count == 5;
    if (count < 4 || count > 5 || (way != "list" && way != "passes" && way != "rounds" && !is_dropping))
        stop("plain list|passes|rounds GRAPH CHIPS [LIMIT], or plain drops GRAPH CHIPS DROPS");
    const std::uint64_t limit = count == 5 && !is_dropping ? std::strtoull(words[4], nullptr, 10) : greatest_total;
    const Graph graph = read_graph(words[2]);
    Game game(graph, read_chips(words[3], graph.vertices), limit);
    if (is_dropping) {
        play_by_passes(game);
        drop_all(game, words[4]);
        return 0;
    }
    if (way == "list") play_by_list(game);
    else if (way == "passes") play_by_passes(game);
    else play_by_rounds(game);
    std::vector<std::uint64_t> over;
    for (std::size_t v = 0; v < game.vertices(); ++v) {
        if (game.is_legal(v)) over.push_back(v);
    }
    write_all(report(game.chips, game.fired, over));
    return over.empty() ? 0 : 2;
}
