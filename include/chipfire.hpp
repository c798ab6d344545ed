/* libchipfire for C++17: what chipfire.h declares, with objects that own their memory, and exceptions in place of statuses.
 *
 *     chipfire::Graph path(4, 3);                     4 vertices, and vertex 3 is the sink
 *     path.add(0, 3); path.add(0, 1); ..              its edges
 *     auto games = chipfire::stabilize_all(path, {0, 5, 0, 0});
 *     chipfire::Pile pile(path, {0, 5, 0, 0});        a game that is kept, and on which chips are dropped
 *     auto fell = pile.drop(1);
 *     chipfire::Books books(ins, outs);               the counters of a process (docs/tasks/detect-your-own.md)
 *
 * chipfire.h says what each call does, which numbers it takes, and what it returns. Numbers that a call reads may be a
 * vector, an array, a list in braces, or a pointer with a length. A fault is thrown as chipfire::Error, and changes nothing
 * unless chipfire.h says so. These calls take memory: make none in the forked child of a process that has threads. */
#ifndef CHIPFIRE_HPP
#define CHIPFIRE_HPP

#include <chipfire.h>

#include <algorithm>
#include <cstddef>
#include <cstdint>
#include <initializer_list>
#include <iterator>
#include <memory>
#include <mutex>
#include <optional>
#include <ostream>
#include <set>
#include <stdexcept>
#include <string>
#include <utility>
#include <vector>

namespace chipfire {

/// The largest number of firings of a vertex, and of chips in a game.
constexpr std::uint64_t max_limit = std::uint64_t{1} << 40;

/// Fault 32, as in `chipfire judge`: a process sends while it is passive.
constexpr std::uint64_t fault_passive = 32;

/// A fault: its number, its place (which chipfire.h explains), and its text.
class Error : public std::runtime_error {
public:
    Error(std::uint64_t fault, std::uint64_t place, const std::string &text)
        : std::runtime_error(text), fault_(fault), place_(place)
    {
    }

    /// The fault of a call of the library.
    Error(std::uint64_t fault, std::uint64_t place)
        : Error(fault, place,
                "fault " + std::to_string(fault) + " at " + std::to_string(place) + ": " + chipfire_strerror(fault))
    {
    }

    std::uint64_t fault() const noexcept { return fault_; }
    std::uint64_t place() const noexcept { return place_; }
    const char *text() const noexcept { return what(); }

private:
    std::uint64_t fault_, place_;
};

/// Numbers that a call reads: a view of a vector, an array, a list, or the caller's memory. They must stay there until the
/// call returns.
class Numbers {
public:
    Numbers() = default;
    Numbers(const std::uint64_t *data, std::size_t size) : data_(data), size_(size) {}
    Numbers(std::initializer_list<std::uint64_t> list) : data_(std::data(list)), size_(std::size(list)) {}
    template <class Container, class = decltype(std::data(std::declval<const Container &>()))>
    Numbers(const Container &its) : data_(std::data(its)), size_(std::size(its))
    {
    }

    const std::uint64_t *data() const noexcept { return data_; }
    std::size_t size() const noexcept { return size_; }

private:
    const std::uint64_t *data_ = nullptr;
    std::size_t size_ = 0;
};

/// Numbers that a call may write: a view of a vector, an array, or the caller's memory.
class Room {
public:
    Room(std::uint64_t *data, std::size_t size) : data_(data), size_(size) {}
    template <class Container, class = decltype(std::data(std::declval<Container &>()))>
    Room(Container &its) : data_(std::data(its)), size_(std::size(its))
    {
    }

    std::uint64_t *data() const noexcept { return data_; }
    std::size_t size() const noexcept { return size_; }

private:
    std::uint64_t *data_;
    std::size_t size_;
};

/// A graph: its vertices, its sink, and its edges. Nothing is checked here: calls that take the graph throw its faults.
class Graph {
public:
    Graph(std::uint64_t vertices, std::uint64_t sink) : vertices_(vertices), sink_(sink) {}

    /// A graph with these edges: their tails, their heads, and how many chips a firing sends along each.
    Graph(std::uint64_t vertices, std::uint64_t sink, std::vector<std::uint64_t> tails, std::vector<std::uint64_t> heads,
          std::vector<std::uint64_t> mults)
        : vertices_(vertices), sink_(sink), tails_(std::move(tails)), heads_(std::move(heads)), mults_(std::move(mults))
    {
    }

    /// Adds an edge.
    void add(std::uint64_t tail, std::uint64_t head, std::uint64_t mult = 1)
    {
        tails_.push_back(tail);
        heads_.push_back(head);
        mults_.push_back(mult);
    }

    std::uint64_t vertices() const noexcept { return vertices_; }
    std::uint64_t sink() const noexcept { return sink_; }
    Numbers tails() const noexcept { return tails_; }
    Numbers heads() const noexcept { return heads_; }
    Numbers mults() const noexcept { return mults_; }

private:
    std::uint64_t vertices_, sink_;
    std::vector<std::uint64_t> tails_, heads_, mults_;
};

namespace detail {

/// Throws the fault of a call, if it has one.
inline void must(std::uint64_t fault, std::uint64_t place = 0)
{
    if (fault != CHIPFIRE_OK) throw Error(fault, place);
}

/// Calls a function of the library on a graph, with the arguments that follow the graph, and throws its fault.
template <class Function, class... Words>
void call(Function function, const Graph &graph, Words... words)
{
    std::uint64_t place = 0;
    const Numbers tails = graph.tails(), heads = graph.heads(), mults = graph.mults();
    const std::uint64_t fault = function(graph.vertices(), graph.sink(), tails.data(), tails.size(), heads.data(),
                                         heads.size(), mults.data(), mults.size(), words..., &place);
    must(fault, place);
}

/// The number of configurations in `numbers` numbers. A remainder makes one more, which the library refuses.
inline std::size_t rows(const Graph &graph, std::size_t numbers)
{
    const std::uint64_t vertices = std::max(graph.vertices(), std::uint64_t{1});
    return static_cast<std::size_t>(numbers / vertices + (numbers % vertices != 0));
}

/// A configuration of zeros. Throws fault 1 if the graph has too many vertices.
inline std::vector<std::uint64_t> zeros(const Graph &graph)
{
    if (graph.vertices() > std::uint64_t{1} << 21) throw Error(CHIPFIRE_FAULT_VERTICES, 0);
    return std::vector<std::uint64_t>(static_cast<std::size_t>(graph.vertices()));
}

/// Calls a function of the library that replaces each configuration by another.
template <class Function>
std::vector<std::uint64_t> replaced(Function function, const Graph &graph, std::vector<std::uint64_t> chips)
{
    call(function, graph, rows(graph, chips.size()), chips.data(), chips.size());
    return chips;
}

}  // namespace detail

/// Games at their ends: chips and firings by vertex, one game after another, and for each game the number of vertices that
/// the limit stopped.
struct Games {
    std::vector<std::uint64_t> chips, fired, stopped;
};

/// The avalanches of drops: for each drop the number of firings, of vertices that fired, and of chips that firings sent to
/// the sink.
struct Drops {
    explicit Drops(std::size_t count) : sizes(count), extents(count), losts(count) {}

    std::vector<std::uint64_t> sizes, extents, losts;
};

/// The avalanche of one drop.
struct Drop {
    std::uint64_t size, extent, lost;
};

/// Avalanches with more measures: for each drop the number of rounds that it lasts, and the vertices that fire, each with
/// its number of firings. In `vertices` and `times`, drop i ends before index ends[i], and begins where the drop before it
/// ends. A measure that was not asked for is empty.
struct Measures : Drops {
    explicit Measures(std::size_t count) : Drops(count) {}

    std::vector<std::uint64_t> durations, ends, vertices, times;
};

/// The least burning script, and the chips that it takes from each vertex on balance.
struct Burning {
    std::vector<std::uint64_t> script, chips;
};

/// Fault 13 of drops on a pile: the limit stopped a drop. `made` returns the avalanches of the drops before that one.
class Stopped : public Error {
public:
    Stopped(std::uint64_t count, Drops made) : Error(CHIPFIRE_FAULT_STOPPED, count), made_(std::move(made)) {}

    const Drops &made() const noexcept { return made_; }

private:
    Drops made_;
};

/// Plays games in the caller's memory (chipfire_stabilize_all).
inline void stabilize_all(const Graph &graph, Room chips, Room fired, Room stopped, std::uint64_t limit = max_limit,
                          Numbers guesses = {})
{
    detail::call(chipfire_stabilize_all, graph, limit, guesses.data(), guesses.size(), chips.data(), chips.size(),
                 fired.data(), fired.size(), stopped.data(), stopped.size());
}

/// Plays games, and returns their ends.
inline Games stabilize_all(const Graph &graph, std::vector<std::uint64_t> chips, std::uint64_t limit = max_limit,
                           Numbers guesses = {})
{
    Games games{std::move(chips), {}, {}};
    games.fired.resize(games.chips.size());
    games.stopped.resize(detail::rows(graph, games.chips.size()));
    stabilize_all(graph, games.chips, games.fired, games.stopped, limit, guesses);
    return games;
}

/// Plays a game in the caller's memory, and then drops amounts[i] chips on vertex at[i], for each i in order
/// (chipfire_avalanches).
inline Drops avalanches(const Graph &graph, Room chips, Numbers at, Numbers amounts, std::uint64_t limit = max_limit)
{
    Drops drops(at.size());
    detail::call(chipfire_avalanches, graph, limit, at.data(), at.size(), amounts.data(), amounts.size(), chips.data(),
                 chips.size(), drops.sizes.data(), at.size(), drops.extents.data(), at.size(), drops.losts.data(), at.size());
    return drops;
}

/// Returns whether counts and chips are those at the end of a game.
inline bool verify(const Graph &graph, Numbers chips, Numbers fired, Numbers ends, std::uint64_t limit = max_limit)
{
    try {
        detail::call(chipfire_verify, graph, limit, chips.data(), chips.size(), fired.data(), fired.size(), ends.data(),
                     ends.size());
    } catch (const Error &error) {
        if (error.fault() != CHIPFIRE_FAULT_DIFFERS) throw;
        return false;
    }
    return true;
}

/// Finds the least burning script.
inline Burning burning(const Graph &graph)
{
    Burning found{detail::zeros(graph), detail::zeros(graph)};
    detail::call(chipfire_burning, graph, found.script.data(), found.script.size(), found.chips.data(), found.chips.size());
    return found;
}

/// Returns 1 for each configuration that is recurrent, and 0 for every other one.
inline std::vector<std::uint64_t> are_recurrent(const Graph &graph, Numbers chips)
{
    std::vector<std::uint64_t> flags(detail::rows(graph, chips.size()));
    detail::call(chipfire_are_recurrent, graph, chips.data(), chips.size(), flags.data(), flags.size());
    return flags;
}

/// Returns, for each configuration, the recurrent configuration equivalent to it.
inline std::vector<std::uint64_t> recurrent(const Graph &graph, std::vector<std::uint64_t> chips)
{
    return detail::replaced(chipfire_recurrent, graph, std::move(chips));
}

/// Returns, for each configuration, the superstable configuration equivalent to it.
inline std::vector<std::uint64_t> superstable(const Graph &graph, std::vector<std::uint64_t> chips)
{
    return detail::replaced(chipfire_superstable, graph, std::move(chips));
}

/// Returns the inverse of each configuration in the sandpile group.
inline std::vector<std::uint64_t> inverse(const Graph &graph, std::vector<std::uint64_t> chips)
{
    return detail::replaced(chipfire_inverse, graph, std::move(chips));
}

/// Finds the identity of the sandpile group.
inline std::vector<std::uint64_t> identity(const Graph &graph)
{
    std::vector<std::uint64_t> chips = detail::zeros(graph);
    detail::call(chipfire_identity, graph, chips.data(), chips.size());
    return chips;
}

/// Draws `count` random recurrent configurations of a seed, with the numbers `first`, `first + 1`, and so on.
inline std::vector<std::uint64_t> random_recurrent(const Graph &graph, std::uint64_t seed, std::size_t count = 1,
                                                   std::uint64_t first = 0)
{
    std::vector<std::uint64_t> chips;
    for (std::size_t row = 0; row < count; row++) {
        const std::vector<std::uint64_t> one = detail::zeros(graph);
        chips.insert(chips.end(), one.begin(), one.end());
    }
    detail::call(chipfire_random_recurrent, graph, seed, first, count, chips.data(), chips.size());
    return chips;
}

/// A pile: a game that is kept from one call to the next, and on which chips are dropped. It owns its memory, and can be
/// moved but not copied. Only one thread may call at a time. Calls on a pile that was moved away throw fault 14.
class Pile {
public:
    /// Makes a pile. Plays nothing.
    Pile(const Graph &graph, Numbers chips, std::uint64_t limit = max_limit)
        : vertices_(static_cast<std::size_t>(graph.vertices())), pile_(new chipfire_pile{})
    {
        std::uint64_t place = 0;
        const Numbers tails = graph.tails(), heads = graph.heads(), mults = graph.mults();
        const std::uint64_t fault =
            chipfire_pile_new(pile_.get(), graph.vertices(), graph.sink(), tails.data(), tails.size(), heads.data(),
                              heads.size(), mults.data(), mults.size(), limit, chips.data(), chips.size(), &place);
        detail::must(fault, place);
    }

    /// Replaces all chips and the limit, and sets all counts to 0. Plays nothing.
    void put(Numbers chips, std::uint64_t limit = max_limit)
    {
        detail::must(chipfire_pile_put(its(), limit, chips.data(), chips.size()));
    }

    /// Plays on for about this number of visits to vertices and edges. Returns true if the play has not ended.
    bool play(std::uint64_t visits = UINT64_MAX)
    {
        std::uint64_t left = 0;
        detail::must(chipfire_pile_play(its(), visits, &left));
        return left != 0;
    }

    /// Drops chips on a vertex, and plays to the end.
    Drop drop(std::uint64_t vertex, std::uint64_t amount = 1)
    {
        Drop set_off{};
        detail::must(chipfire_pile_drop(its(), vertex, amount, &set_off.size, &set_off.extent, &set_off.lost));
        return set_off;
    }

    /// Drops amounts[i] chips on vertex at[i], for each i in order. If the limit stops a play, the call throws Stopped.
    Drops drops(Numbers at, Numbers amounts)
    {
        Drops set_off(at.size());
        std::uint64_t place = 0;
        const std::uint64_t fault =
            chipfire_pile_drops(its(), at.data(), at.size(), amounts.data(), amounts.size(), set_off.sizes.data(), at.size(),
                                set_off.extents.data(), at.size(), set_off.losts.data(), at.size(), &place);
        if (fault == CHIPFIRE_FAULT_STOPPED) {
            for (auto rows : {&set_off.sizes, &set_off.extents, &set_off.losts}) rows->resize(static_cast<std::size_t>(place));
            throw Stopped(place, std::move(set_off));
        }
        detail::must(fault, place);
        return set_off;
    }

    /// Drops chips as `drops` does. Returns what each drop fires and, if `timed`, how many rounds it lasts. If `loses`,
    /// stops after the first drop that loses a chip. With `marks`, stops after the first drop that fires vertices with the
    /// marks that chipfire_pile_measure describes.
    Measures measure(Numbers at, Numbers amounts, bool timed = false, bool loses = false, Numbers marks = {})
    {
        its();
        Measures found(at.size());
        found.durations.resize(timed ? at.size() : 0);
        found.ends.resize(at.size());
        if (amounts.size() != at.size()) throw Error(CHIPFIRE_FAULT_LENGTHS, 0);
        std::size_t made = 0;
        do {
            made = measure_more(at, amounts, loses, marks, made, found);
        } while (made < at.size() && !ends_run(found, made - 1, loses, marks));
        for (auto rows : {&found.sizes, &found.extents, &found.losts, &found.ends}) rows->resize(made);
        found.durations.resize(timed ? made : 0);
        return found;
    }

    /// Draws random recurrent configurations of the graph, as the function of this name does. The pile is unchanged.
    std::vector<std::uint64_t> random_recurrent(std::uint64_t seed, std::size_t count = 1, std::uint64_t first = 0)
    {
        std::vector<std::uint64_t> found;
        for (std::size_t row = 0; row < count; row++) found.resize(found.size() + vertices_);
        std::uint64_t place = 0;
        const std::uint64_t fault =
            chipfire_pile_random_recurrent(its(), seed, first, count, found.data(), found.size(), &place);
        detail::must(fault, place);
        return found;
    }

    /// The chips of each vertex.
    std::vector<std::uint64_t> chips()
    {
        std::vector<std::uint64_t> found(vertices_);
        detail::must(chipfire_pile_chips(its(), found.data(), found.size()));
        return found;
    }

    /// How often each vertex has fired since the pile was made or `put` was called.
    std::vector<std::uint64_t> fired()
    {
        std::vector<std::uint64_t> found(vertices_);
        detail::must(chipfire_pile_fired(its(), found.data(), found.size()));
        return found;
    }

    /// The number of bytes in the arrays of the pile (chipfire_pile_size).
    std::uint64_t size() { return chipfire_pile_size(its()); }

private:
    /// Whether chipfire_pile_measure stops after this drop.
    static bool ends_run(const Measures &found, std::size_t drop, bool loses, Numbers marks)
    {
        if (loses && found.losts[drop] > 0) return true;
        if (marks.size() == 0) return false;
        std::uint64_t bits = 0;
        for (std::uint64_t it = drop == 0 ? 0 : found.ends[drop - 1]; it < found.ends[drop]; it++) {
            bits |= marks.data()[found.vertices[static_cast<std::size_t>(it)]];
        }
        return (bits & 1) == 1 || (bits & 6) == 6 || (bits & 24) == 24;
    }

    /// Makes the drops that there is room for, from number `made` on, up to a drop after which chipfire_pile_measure stops.
    /// Returns the number of drops made.
    std::size_t measure_more(Numbers at, Numbers amounts, bool loses, Numbers marks, std::size_t made, Measures &found)
    {
        const std::size_t before = found.vertices.size(), room = before + std::max(vertices_, before);
        const std::size_t left = at.size() - made, timed = found.durations.empty() ? 0 : left;
        found.vertices.resize(room);
        found.times.resize(room);
        std::uint64_t place = 0;
        const std::uint64_t fault = chipfire_pile_measure(
            its(), at.data() + made, left, amounts.data() + made, left, loses, marks.data(), marks.size(),
            found.sizes.data() + made, left, found.extents.data() + made, left, found.losts.data() + made, left,
            found.durations.data() + (timed == 0 ? 0 : made), timed, found.ends.data() + made, left,
            found.vertices.data() + before, room - before, found.times.data() + before, room - before, &place);
        if (fault != CHIPFIRE_FAULT_STOPPED) detail::must(fault, place);
        const std::size_t all = made + static_cast<std::size_t>(place);
        for (std::size_t drop = made; drop < all; drop++) found.ends[drop] += before;
        if (fault == CHIPFIRE_FAULT_STOPPED) {
            for (auto rows : {&found.sizes, &found.extents, &found.losts}) rows->resize(all);
            throw Stopped(all, std::move(found));
        }
        found.vertices.resize(all == 0 ? 0 : static_cast<std::size_t>(found.ends[all - 1]));
        found.times.resize(found.vertices.size());
        return all;
    }

    struct Free {
        void operator()(chipfire_pile *pile) const noexcept
        {
            chipfire_pile_free(pile);
            delete pile;
        }
    };

    chipfire_pile *its() const
    {
        if (pile_ == nullptr) throw Error(CHIPFIRE_FAULT_NO_PILE, 0);
        return pile_.get();
    }

    std::size_t vertices_;
    std::unique_ptr<chipfire_pile, Free> pile_;
};

/// The number of messages of an edge that its head has acknowledged so far. The tail of the edge passes it to
/// Books::settled.
struct Acknowledged {
    std::uint64_t edge, count;
};

/// The books of a process: its counters for the detector of Dijkstra and Scholten. docs/tasks/detect-your-own.md says what
/// is proved, and which duties the caller has.
///
/// The duties are calls, each to be made at the right moment:
///
///     sent(edge)           before the message can be received
///     got(edge)            when the message is received, before the work on it begins
///     add_work()           when there is more work to do
///     done()               after the work on a message, or after an added piece of work
///     acknowledge()        at any time: pass each count that it returns to the tail of its edge
///     settled(edge, count) at any time, with a count that acknowledge() of the edge's head returned
///     is_over()            only by the root
///
/// Any thread may call. A process works on each message from `got` to `done`, and is passive while it works on nothing. Only
/// the root begins at work, on one piece, and no edge leads to the root. A refused call changes nothing, and throws an Error
/// whose place is the process. The fault is 46 if an edge, a count or a piece of work does not exist. The fault is 32 if the
/// process sends, or adds work, while it is passive.
///
/// At each duty, `log` gets a row `process,kind,channel` for `chipfire judge`. The stream must outlive the books.
class Books {
public:
    Books(std::vector<std::uint64_t> ins, std::vector<std::uint64_t> outs, bool is_root = false, std::uint64_t process = 0,
          std::ostream *log = nullptr)
        : ins_(tallies(std::move(ins))), outs_(tallies(std::move(outs))), is_root_(is_root), process_(process), log_(log)
    {
        if (is_root && !ins_.empty()) throw std::invalid_argument("no edge leads to the root: put one before the process");
        point();
        must(chipfire_books_open(&books_), "an edge is named twice, or has the number of none");
        if (is_root) note("active");
    }

    Books(const Books &) = delete;
    Books &operator=(const Books &) = delete;

    /// Adds an edge into the process, or out of it, as if the edge had been there from the start, with counts 0.
    void add_in(std::uint64_t edge)
    {
        const std::lock_guard<std::mutex> held(lock_);
        if (is_root_) throw std::invalid_argument("no edge leads to the root");
        add(ins_, edge);
    }
    void add_out(std::uint64_t edge)
    {
        const std::lock_guard<std::mutex> held(lock_);
        add(outs_, edge);
    }

    /// Notes a message that the process sends, before any process can receive it.
    void sent(std::uint64_t edge)
    {
        const std::lock_guard<std::mutex> held(lock_);
        if (work_ == 0) refuse(fault_passive, "it sends on edge " + std::to_string(edge) + " while it is passive");
        must(chipfire_books_sent(&books_, edge), "no message can be sent on edge " + std::to_string(edge));
        note("send", edge);
    }

    /// Notes a message that the process has received. The process is at work on it until `done`.
    void got(std::uint64_t edge)
    {
        const std::lock_guard<std::mutex> held(lock_);
        const auto open = open_.insert(edge);
        const std::uint64_t fault = chipfire_books_got(&books_, edge);
        if (fault != CHIPFIRE_OK && open.second) open_.erase(open.first);
        must(fault, "no message can be got on edge " + std::to_string(edge));
        work_++;
        note("receive", edge);
    }

    /// Notes that there are `pieces` more pieces of work. Each needs its own `done`.
    void add_work(std::uint64_t pieces = 1)
    {
        const std::lock_guard<std::mutex> held(lock_);
        if (work_ == 0) refuse(fault_passive, "it has more to do while it is passive");
        work_ += pieces;
    }

    /// Notes that the work on a message, or on an added piece, has ended. When no work is left, the process is passive.
    void done()
    {
        const std::lock_guard<std::mutex> held(lock_);
        if (work_ == 0) refuse(CHIPFIRE_FAULT_BOOKS, "it is done with more than it had to do");
        if (--work_ == 0) note("passive");
    }

    /// Acknowledges all messages that may be acknowledged. Returns, for each edge with new acknowledgements, the number of
    /// its messages acknowledged so far. A later number for an edge replaces an earlier one.
    std::vector<Acknowledged> acknowledge()
    {
        const std::lock_guard<std::mutex> held(lock_);
        std::vector<Acknowledged> found;
        found.reserve(open_.size());
        const std::vector<std::uint64_t> open(open_.begin(), open_.end());
        const std::uint64_t parent = books_.parent;
        for (const std::uint64_t edge : open) {
            if (edge != parent) acknowledge(edge, found);
        }
        // (its last message waits for those of all other edges)
        if (parent != CHIPFIRE_NEUTRAL) acknowledge(parent, found);
        return found;
    }

    /// Notes the number of messages of an edge that its head had acknowledged, by the latest report or an earlier one.
    /// Returns how many of these are new.
    std::uint64_t settled(std::uint64_t edge, std::uint64_t count)
    {
        const std::lock_guard<std::mutex> held(lock_);
        std::uint64_t more = 0;
        must(chipfire_books_settled(&books_, edge, count, &more),
             std::to_string(count) + " acknowledgements on edge " + std::to_string(edge) + " are more than its messages");
        note("hear", edge, more);
        return more;
    }

    /// Whether the computation is over. Only the root may ask.
    bool is_over()
    {
        const std::lock_guard<std::mutex> held(lock_);
        if (!is_root_) throw std::logic_error("process " + std::to_string(process_) + " is not the root, which alone can know");
        std::uint64_t over = 0;
        must(chipfire_books_is_over(&books_, work_ == 0, &over), "its books are not sound");
        if (over != 0 && !has_claimed_) note("over");
        has_claimed_ = has_claimed_ || over != 0;
        return over != 0;
    }

    /// The number of acknowledgements that the process waits for.
    std::uint64_t deficit() const
    {
        const std::lock_guard<std::mutex> held(lock_);
        return books_.deficit;
    }

    /// The edge of the message that engaged the process, or nothing if the process is neutral.
    std::optional<std::uint64_t> parent() const
    {
        const std::lock_guard<std::mutex> held(lock_);
        return books_.parent == CHIPFIRE_NEUTRAL ? std::nullopt : std::optional<std::uint64_t>(books_.parent);
    }

    /// Whether the process is at work.
    bool is_active() const
    {
        const std::lock_guard<std::mutex> held(lock_);
        return work_ != 0;
    }

private:
    using Side = std::vector<chipfire_tally>;

    /// Tallies with counts 0, by ascending edges.
    static Side tallies(std::vector<std::uint64_t> edges)
    {
        std::sort(edges.begin(), edges.end());
        Side side;
        side.reserve(edges.size());
        for (const std::uint64_t edge : edges) side.push_back({edge, 0, 0});
        return side;
    }

    /// Points the struct to the tallies.
    void point()
    {
        books_.ins = ins_.data();
        books_.ins_len = ins_.size();
        books_.outs = outs_.data();
        books_.outs_len = outs_.size();
    }

    void add(Side &side, std::uint64_t edge)
    {
        const auto place = std::lower_bound(side.begin(), side.end(), edge,
                                            [](const chipfire_tally &tally, std::uint64_t its) { return tally.edge < its; });
        const bool is_there = place != side.end() && place->edge == edge;
        if (is_there || edge == CHIPFIRE_NEUTRAL) {
            refuse(CHIPFIRE_FAULT_BOOKS, "edge " + std::to_string(edge) + " is there, or the number of none");
        }
        side.insert(place, {edge, 0, 0});
        point();
    }

    /// Acknowledges what may be acknowledged on an edge.
    void acknowledge(std::uint64_t edge, std::vector<Acknowledged> &found)
    {
        std::uint64_t count = 0, word = 0;
        must(chipfire_books_acknowledge(&books_, edge, work_ == 0, &count, &word), "its acknowledgements on an edge");
        if (count == 0) return;
        note("tell", edge, count);
        found.push_back({edge, word});
        if (is_settled(edge)) open_.erase(edge);
    }

    /// Whether all messages of an edge into the process are acknowledged.
    bool is_settled(std::uint64_t edge) const
    {
        const auto its = std::lower_bound(ins_.begin(), ins_.end(), edge,
                                          [](const chipfire_tally &tally, std::uint64_t it) { return tally.edge < it; });
        return its->messages == its->answered;
    }

    void must(std::uint64_t fault, const std::string &why) const
    {
        if (fault != CHIPFIRE_OK) refuse(fault, why);
    }

    [[noreturn]] void refuse(std::uint64_t fault, const std::string &why) const
    {
        throw Error(fault, process_, "fault " + std::to_string(fault) + ": process " + std::to_string(process_) + ": " + why);
    }

    /// Writes a row `times` times, if there is a log.
    void note(const char *kind, std::uint64_t channel = 0, std::uint64_t times = 1)
    {
        if (log_ == nullptr) return;
        for (; times > 0; times--) *log_ << process_ << ',' << kind << ',' << channel << '\n';
        log_->flush();
    }

    mutable std::mutex lock_;
    Side ins_, outs_;
    chipfire_books books_{nullptr, 0, nullptr, 0, CHIPFIRE_NEUTRAL, 0, 0};
    bool is_root_, has_claimed_ = false;
    std::uint64_t process_;
    /// The messages and pieces of work that the process works on.
    std::uint64_t work_ = is_root_ ? 1 : 0;
    /// The edges with messages that are not acknowledged.
    std::set<std::uint64_t> open_;
    std::ostream *log_;
};

}  // namespace chipfire

#endif
