/* Plays pools in one thread, turn by turn in an order that is fixed: that of examples/c/pool.cpp, and what edits make of it.
 *
 *     pools FOLDER
 *
 * The root's task goes to worker 0, which pushes two more. Amid this task worker 1 makes a turn, and steals the first of
 * them; then the root asks whether all is over. The test writes pools.inc: a namespace with each pool, and the list `pools` of
 * their names and of `play` for each. It writes a line for each: its name, and what came of it. Worker P leaves its log in
 * FOLDER/NAME-P.rows. */
#include <chipfire.hpp>

#include <atomic>
#include <deque>
#include <exception>
#include <fstream>
#include <functional>
#include <iostream>
#include <memory>
#include <mutex>
#include <string>
#include <thread>
#include <vector>

enum { WORKERS = 2, ROUNDS = 10 };

/// What an edit that notes a message too late keeps meanwhile.
static std::uint64_t late;

/// How many tasks are open, which no pool reads.
static unsigned open_tasks;

/// What the root says amid the first task.
static std::string amid;

/// Where the logs go.
static std::string where;

/// How it stands once the root was asked.
static std::string state_of(bool is_over)
{
    if (!is_over) return "";
    return open_tasks > 0 ? "early" : "over";
}

/// The root's task, of worker 0.
template <class Pool>
void begin(Pool &pool, std::size_t me)
{
    for (int task = 0; task < 2; task++) {
        open_tasks++;
        pool.push(me, [](std::size_t) { open_tasks--; });
    }
    pool.turn(1);
    amid = state_of(pool.is_over());
    open_tasks--;
}

/// Plays turns until it is over.
template <class Pool>
std::string play_on(Pool &pool)
{
    open_tasks = 1;
    amid.clear();
    pool.begin([&](std::size_t me) { begin(pool, me); });
    for (int round = 0; round < ROUNDS; round++) {
        for (std::size_t me = 0; me < WORKERS; me++) pool.turn(me);
        if (!amid.empty()) return amid;
        const std::string now = state_of(pool.is_over());
        if (!now.empty()) return now;
    }
    return "never over";
}

template <class Pool>
void play(const std::string &name)
{
    std::vector<std::ofstream> files;
    std::vector<std::ostream *> logs;
    for (int process = 0; process <= WORKERS; process++) {
        files.emplace_back(where + "/" + name + "-" + std::to_string(process) + ".rows");
    }
    for (auto &file : files) logs.push_back(&file);
    Pool pool(WORKERS, logs);
    std::string what;
    try {
        what = play_on(pool);
    } catch (const chipfire::Error &error) {
        what = amid.empty() ? error.text() : amid + ", then " + error.text();
    }
    std::cout << name << ": " << what << '\n';
}

#include "pools.inc"

int main(int count, char **words)
{
    if (count != 2) return 1;
    where = words[1];
    for (const auto &it : pools) it.play(it.name);
    return 0;
}
