// Runs the pool of examples/c/pool.cpp many times, beside a count of tasks that it never reads.
//
//     pool RUNS SEED PATIENCE LOGS FOLDER
//
// A task pushes two more until it has made some steps, with pauses drawn at random. It writes how many runs there were, how
// many of them were early, with tasks open when all was over, and how many were missed: not over, and nothing happened for so
// many seconds. With the first that is missed it ends. The first LOGS runs leave logs in the folder, RUN-PROCESS.rows.
#define main example
#include "../examples/c/pool.cpp"
#undef main

#include <chrono>
#include <cstdlib>
#include <fstream>
#include <random>
#include <string>

static const unsigned workers = 4, steps = 5, in_all = (1u << (steps + 1)) - 1;

/// What was worked on in a run, and in which it is.
struct Count {
    std::atomic<unsigned> done{0}, run{0}, early{0};
    std::atomic<bool> has_ended{false};
};

/// Lets other threads go first, now and then.
static void linger(unsigned seed)
{
    std::minstd_rand draw(seed);
    draw.discard(3);
    const auto drawn = draw() % 4;
    if (drawn == 0) std::this_thread::sleep_for(std::chrono::microseconds(100));
    if (drawn == 1) std::this_thread::yield();
}

/// A task: it has a seed of its own, by which it is drawn where it lingers.
static void serve(Pool &pool, std::size_t me, unsigned step, unsigned seed, Count &count)
{
    for (unsigned next = 0; step < steps && next < 2; next++) {
        pool.push(me, [&pool, step, seed, next, &count](std::size_t its) {
            serve(pool, its, step + 1, 2 * seed + next + 1, count);
        });
        linger(2 * seed + next);
    }
    count.done++;
}

/// Plays one run. The first ones leave logs.
static void play(unsigned run, unsigned seed, const std::string &folder, bool has_log, Count &count)
{
    std::vector<std::ofstream> files;
    std::vector<std::ostream *> logs;
    for (unsigned process = 0; has_log && process <= workers; process++) {
        files.emplace_back(folder + "/" + std::to_string(run) + "-" + std::to_string(process) + ".rows");
    }
    for (auto &file : files) logs.push_back(&file);
    count.done = 0;
    Pool pool(workers, logs);
    pool.run([&pool, seed, &count](std::size_t me) { serve(pool, me, 0, seed, count); });
    if (count.done < in_all) count.early++;
}

/// Ends the program if nothing happens for so long.
static void watch(Count &count, std::chrono::duration<double> patience)
{
    auto seen = std::make_pair(0u, 0u);
    auto since = std::chrono::steady_clock::now();
    while (!count.has_ended) {
        std::this_thread::sleep_for(std::chrono::milliseconds(20));
        const auto now = std::make_pair(count.run.load(), count.done.load());
        if (now != seen) since = std::chrono::steady_clock::now();
        seen = now;
        if (std::chrono::steady_clock::now() - since > patience) {
            std::cout << now.first << ' ' << count.early << " 1" << std::endl;
            std::_Exit(0);
        }
    }
}

int main(int given, char **words)
{
    if (given != 6) return 1;
    const auto runs = static_cast<unsigned>(std::stoul(words[1])), seed = static_cast<unsigned>(std::stoul(words[2]));
    const auto logs = static_cast<unsigned>(std::stoul(words[4]));
    Count count;
    std::thread watcher([&] { watch(count, std::chrono::duration<double>(std::stod(words[3]))); });
    while (count.run < runs) {
        count.run++;
        play(count.run - 1, seed + 64 * count.run, words[5], count.run <= logs, count);
    }
    count.has_ended = true;
    watcher.join();
    std::cout << count.run << ' ' << count.early << " 0\n";
}
