/* Calls each function of chipfire.hpp once with success and with its faults, on the triangle: 0 and 1 beside the sink 2. All
 * numbers are worked out by hand. It writes what is wrong, and ends with status 0 if nothing is. */
#include <chipfire.hpp>

#include <array>
#include <iostream>
#include <limits>
#include <sstream>
#include <thread>

using Row = std::vector<std::uint64_t>;

static int wrong = 0;

/// Writes the line of a check that fails.
static void expect(bool is_so, int line)
{
    if (is_so) return;
    std::cout << "calls.cpp:" << line << ": it is not so\n";
    wrong = 1;
}

#define EXPECT(is_so) expect(is_so, __LINE__)

/// The fault that something throws, and its place; {0, 0} if nothing is thrown.
template <class Call>
std::pair<std::uint64_t, std::uint64_t> fault_of(Call call)
{
    try {
        call();
    } catch (const chipfire::Error &error) {
        return {error.fault(), error.place()};
    }
    return {0, 0};
}

static std::pair<std::uint64_t, std::uint64_t> at(std::uint64_t fault, std::uint64_t place) { return {fault, place}; }

/// The triangle: 4 chips on 0 fire 0, 0, 1 and leave 1, 0, 3.
static chipfire::Graph triangle()
{
    chipfire::Graph graph(3, 2);
    for (std::uint64_t tail = 0; tail < 2; tail++) {
        graph.add(tail, 1 - tail);
        graph.add(tail, 2);
    }
    return graph;
}

static void play_games()
{
    const auto graph = triangle();
    const auto games = chipfire::stabilize_all(graph, {4, 0, 0, 1, 1, 5});
    EXPECT((games.chips == Row{1, 0, 3, 1, 1, 5} && games.fired == Row{2, 1, 0, 0, 0, 0} && games.stopped == Row{0, 0}));
    EXPECT((chipfire::stabilize_all(graph, {4, 0, 0}, 1).stopped == Row{1}));
    EXPECT((chipfire::stabilize_all(graph, {4, 0, 0}, chipfire::max_limit, {2, 1, 0}).fired == Row{2, 1, 0}));
    std::array<std::uint64_t, 3> chips{4, 0, 0}, fired{};
    std::uint64_t stopped[1];
    chipfire::stabilize_all(graph, chips, fired, stopped);
    EXPECT(chips[0] == 1 && chips[2] == 3 && fired[0] == 2 && stopped[0] == 0);
    EXPECT(fault_of([&] { chipfire::stabilize_all(graph, {4, 0}); }) == at(CHIPFIRE_FAULT_LENGTHS, 0));
    EXPECT(fault_of([&] { chipfire::stabilize_all(graph, {4, 0, chipfire::max_limit}); }) == at(CHIPFIRE_FAULT_TOTAL, 0));
    EXPECT(fault_of([] { chipfire::stabilize_all({3, 3}, {0, 0, 0}); }) == at(CHIPFIRE_FAULT_SINK, 0));
    EXPECT(fault_of([] { chipfire::stabilize_all({3, 2, {0, 1}, {2, 1}, {1, 1}}, {0, 0, 0}); }) == at(CHIPFIRE_FAULT_LOOP, 1));
    EXPECT(chipfire::verify(graph, {4, 0, 0}, {2, 1, 0}, {1, 0, 3}));
    EXPECT(!chipfire::verify(graph, {4, 0, 0}, {1, 1, 0}, {1, 0, 3}));
    EXPECT(fault_of([&] { chipfire::verify(graph, {4}, {0}, {0}); }).first != 0);
}

static void play_drops()
{
    const auto graph = triangle();
    Row chips{4, 0, 0};
    const auto drops = chipfire::avalanches(graph, chips, {2, 0, 1}, {1, 1, 2});
    EXPECT((chips == Row{1, 1, 6} && drops.sizes == Row{0, 1, 1} && drops.extents == Row{0, 1, 1}));
    EXPECT((drops.losts == Row{0, 1, 1}));
    EXPECT(fault_of([&] { chipfire::avalanches(graph, chips, {3}, {1}); }) == at(CHIPFIRE_FAULT_VERTEX, 0));
    chipfire::Pile first(graph, {4, 0, 0}), pile = std::move(first);
    EXPECT(fault_of([&] { first.chips(); }) == at(CHIPFIRE_FAULT_NO_PILE, 0));
    EXPECT(fault_of([&] { first.measure({1}, {}); }) == at(CHIPFIRE_FAULT_NO_PILE, 0));
    EXPECT((pile.chips() == Row{4, 0, 0} && pile.size() == 76 * 3 + 48 * 4));
    EXPECT(pile.play(0) && !pile.play());
    EXPECT((pile.chips() == Row{1, 0, 3}));
    const auto fell = pile.drop(2);
    EXPECT(fell.size == 0 && fell.extent == 0 && fell.lost == 0);
    EXPECT((pile.chips() == Row{1, 0, 4} && pile.fired() == Row{2, 1, 0}));
    EXPECT((pile.random_recurrent(5, 3) == chipfire::random_recurrent(graph, 5, 3) && pile.fired() == Row{2, 1, 0}));
    EXPECT(fault_of([&] { pile.drop(3); }) == at(CHIPFIRE_FAULT_VERTEX, 0));
    EXPECT(fault_of([&] { pile.drops({0, 3}, {1, 1}); }) == at(CHIPFIRE_FAULT_VERTEX, 1));
    pile.put({1, 0, 0}, 1);
    try {
        pile.drops({0, 0, 0, 0}, {1, 1, 1, 1});
        EXPECT(false);
    } catch (const chipfire::Stopped &stopped) {
        EXPECT((stopped.place() == 2 && stopped.made().sizes == Row{1, 0} && stopped.made().losts == Row{1, 0}));
    }
    EXPECT(fault_of([&] { chipfire::Pile(graph, {1}); }) == at(CHIPFIRE_FAULT_START_LENGTH, 0));
    pile.put({1, 1, 0});
    const auto found = pile.measure({0, 2, 0, 2, 2}, {1, 1, 5, 0, 0}, true);
    EXPECT((found.sizes == Row{2, 0, 4, 0, 0} && found.durations == Row{2, 0, 3, 0, 0}));
    EXPECT((found.ends == Row{2, 2, 4, 4, 4} && found.vertices == Row{0, 1, 0, 1} && found.times == Row{1, 1, 3, 1}));
    EXPECT((pile.measure({0}, {0}).durations.empty() && pile.measure({}, {}).ends.empty()));
    pile.put({1, 1, 0});
    EXPECT((pile.measure({2, 0, 2}, {1, 1, 1}, true, true).durations == Row{0, 2}));
    pile.put({1, 1, 0});
    EXPECT((pile.measure({2, 0, 2}, {1, 1, 1}, false, false, {2, 4, 0}).ends == Row{0, 2}));
    pile.put({1, 1, 0});
    EXPECT((pile.measure({2, 0, 2}, {1, 1, 1}, false, false, {2, 0, 5}).ends == Row{0, 2, 2}));
    EXPECT(fault_of([&] { pile.measure({0}, {1}, false, false, {1, 1}); }) == at(CHIPFIRE_FAULT_LENGTHS, 0));
    EXPECT(fault_of([&] { pile.measure({0, 3}, {1, 1}); }) == at(CHIPFIRE_FAULT_VERTEX, 1));
    EXPECT(fault_of([&] { pile.measure({0, 1}, {1}); }) == at(CHIPFIRE_FAULT_LENGTHS, 0));
}

/// The sandpile group of the triangle has 3 elements, and its identity is 1, 1: twice that is 2, 2, which fires 0 and 1.
static void play_group()
{
    const auto graph = triangle();
    EXPECT((chipfire::identity(graph) == Row{1, 1, 0}));
    EXPECT((chipfire::are_recurrent(graph, {1, 1, 0, 0, 0, 0, 1, 0, 0}) == Row{1, 0, 1}));
    EXPECT((chipfire::recurrent(graph, {0, 0, 0, 1, 0, 0}) == Row{1, 1, 0, 1, 0, 0}));
    EXPECT((chipfire::superstable(graph, {1, 1, 7}) == Row{0, 0, 0}));
    EXPECT((chipfire::inverse(graph, {1, 0, 0}) == Row{0, 1, 0}));
    EXPECT((chipfire::burning(graph).script == Row{1, 1, 0}));
    EXPECT((chipfire::are_recurrent(graph, chipfire::random_recurrent(graph, 5, 3)) == Row{1, 1, 1}));
    const Row drawn = chipfire::random_recurrent(graph, 5, 3);
    EXPECT((chipfire::random_recurrent(graph, 5, 1, 2) == Row(drawn.begin() + 6, drawn.end())));
    EXPECT(fault_of([&] { chipfire::recurrent(graph, {1, 1}); }) == at(CHIPFIRE_FAULT_LENGTHS, 0));
    const chipfire::Graph endless(std::numeric_limits<std::uint64_t>::max(), 0);
    EXPECT(fault_of([&] { chipfire::identity(endless); }) == at(CHIPFIRE_FAULT_VERTICES, 0));
}

/// Process 0 is the root. It wakes 1 on edge 0, which sends to 2 on edge 1, and 2 sends back on edge 2.
static void keep_books()
{
    std::ostringstream log;
    chipfire::Books root({}, {0}, true, 0, &log), one({0}, {1}, false, 1, &log), two({}, {}, false, 2, &log);
    root.sent(0);
    root.done();
    one.got(0);
    one.sent(1);
    one.add_in(2);
    two.add_in(1);
    two.add_out(2);
    two.got(1);
    two.sent(2);
    two.done();
    EXPECT(two.acknowledge().empty() && two.parent() == 1u && two.deficit() == 1 && !two.is_active());
    one.got(2);
    one.done();
    auto back = one.acknowledge();
    EXPECT(back.size() == 1 && back[0].edge == 2 && back[0].count == 1 && one.is_active());
    EXPECT(two.settled(2, 1) == 1 && two.settled(2, 0) == 0);
    back = two.acknowledge();
    EXPECT(back.size() == 1 && back[0].edge == 1 && !two.parent());
    one.done();
    EXPECT(one.acknowledge().empty() && !root.is_over());
    EXPECT(one.settled(1, 1) == 1);
    back = one.acknowledge();
    EXPECT(back.size() == 1 && root.settled(0, back[0].count) == 1 && root.is_over() && root.is_over());
    EXPECT(log.str() ==
           "0,active,0\n0,send,0\n0,passive,0\n1,receive,0\n1,send,1\n2,receive,1\n2,send,2\n2,passive,0\n1,receive,2\n"
           "1,tell,2\n2,hear,2\n2,tell,1\n1,passive,0\n1,hear,1\n1,tell,0\n0,hear,0\n0,over,0\n");
}

/// One call acknowledges all: the parent, on which the first message came, last.
static void acknowledge_all()
{
    std::ostringstream log;
    chipfire::Books one({0, 1}, {}, false, 1, &log);
    for (const std::uint64_t edge : {0u, 0u, 1u}) one.got(edge);
    for (int piece = 0; piece < 2; piece++) one.done();
    const auto before = one.acknowledge();
    EXPECT(before.size() == 2 && before[0].edge == 1 && before[0].count == 1 && before[1].edge == 0 && before[1].count == 1);
    EXPECT(one.parent() == 0u);
    one.done();
    const auto after = one.acknowledge();
    EXPECT(after.size() == 1 && after[0].edge == 0 && after[0].count == 2 && !one.parent());
    log.str("");
    for (const std::uint64_t edge : {1u, 0u, 1u}) one.got(edge);
    one.add_work(2);
    for (int piece = 0; piece < 5; piece++) one.done();
    const auto all = one.acknowledge();
    EXPECT(all.size() == 2 && all[0].edge == 0 && all[0].count == 3 && all[1].edge == 1 && all[1].count == 3);
    EXPECT(log.str() == "1,receive,1\n1,receive,0\n1,receive,1\n1,passive,0\n1,tell,0\n1,tell,1\n1,tell,1\n");
    EXPECT(one.acknowledge().empty() && !one.is_active());
}

template <class Error, class Call>
bool throws(Call call)
{
    try {
        call();
    } catch (const Error &) {
        return true;
    }
    return false;
}

static void break_books()
{
    chipfire::Books root({}, {0}, true, 7), one({0}, {1}, false, 8);
    EXPECT(fault_of([&] { one.sent(1); }) == at(chipfire::fault_passive, 8));
    EXPECT(fault_of([&] { one.add_work(); }) == at(chipfire::fault_passive, 8));
    EXPECT(fault_of([&] { one.done(); }) == at(CHIPFIRE_FAULT_BOOKS, 8));
    EXPECT(fault_of([&] { one.got(1); }) == at(CHIPFIRE_FAULT_BOOKS, 8) && one.acknowledge().empty());
    EXPECT(fault_of([&] { root.sent(1); }) == at(CHIPFIRE_FAULT_BOOKS, 7));
    EXPECT(fault_of([&] { root.settled(0, 1); }) == at(CHIPFIRE_FAULT_BOOKS, 7));
    EXPECT(fault_of([&] { root.add_out(0); }) == at(CHIPFIRE_FAULT_BOOKS, 7));
    EXPECT(fault_of([&] { root.add_out(CHIPFIRE_NEUTRAL); }) == at(CHIPFIRE_FAULT_BOOKS, 7));
    EXPECT(fault_of([] { chipfire::Books twice({1, 1}, {}); }) == at(CHIPFIRE_FAULT_BOOKS, 0));
    EXPECT(throws<std::invalid_argument>([] { chipfire::Books books({1}, {}, true); }));
    EXPECT(throws<std::invalid_argument>([&] { root.add_in(1); }));
    EXPECT(throws<std::logic_error>([&] { one.is_over(); }));
    EXPECT(!root.is_over() && root.deficit() == 0);
}

/// Threads send by the books of one process, and others get by those of another.
static void share_books()
{
    chipfire::Books root({}, {0}, true), one({0}, {});
    const std::uint64_t many = 1000;
    auto send = [&] { for (std::uint64_t it = 0; it < many; it++) root.sent(0); };
    std::thread other(send);
    send();
    other.join();
    root.done();
    std::uint64_t acked[2] = {0, 0};
    auto get = [&](std::uint64_t &last) {
        for (std::uint64_t it = 0; it < many; it++) {
            one.got(0);
            one.done();
            for (const auto &back : one.acknowledge()) last = std::max(last, back.count);
        }
    };
    std::thread more(get, std::ref(acked[0]));
    get(acked[1]);
    more.join();
    EXPECT(std::max(acked[0], acked[1]) == 2 * many && root.settled(0, 2 * many) == 2 * many && root.is_over());
}

int main()
{
    play_games();
    play_drops();
    play_group();
    keep_books();
    acknowledge_all();
    break_books();
    share_books();
    return wrong;
}
