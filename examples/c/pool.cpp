/* A pool of workers that steal tasks from one another. It counts in how many ways queens stand on a board, none attacked
 * by another, and the books of libchipfire say when all tasks are done.
 *
 * A worker is a process, and a stolen task is a message. What a worker has in its deque, or works on, is its work. The
 * root has the first task and no thread, so no message leads to it.
 *
 *     c++ -std=c++17 -pthread pool.cpp $(pkg-config --cflags --libs chipfire) -o pool */
#include <chipfire.hpp>

#include <atomic>
#include <deque>
#include <exception>
#include <functional>
#include <iostream>
#include <memory>
#include <mutex>
#include <thread>
#include <vector>

class Pool {
public:
    /// What a worker does. It gets its number, under which it may push more.
    using Task = std::function<void(std::size_t worker)>;

    /// A pool of this number of workers. With logs, each worker, and the root after them, has one.
    explicit Pool(std::size_t workers, const std::vector<std::ostream *> &logs = {})
        : workers_(workers), acked_((workers + 1) * workers)
    {
        for (std::size_t me = 0; me <= workers; me++) {
            std::vector<std::uint64_t> ins, outs;
            for (std::size_t other = 0; other <= workers; other++) {
                if (other != me && me != workers) ins.push_back(edge(other, me));
                if (other != me && other != workers) outs.push_back(edge(me, other));
            }
            parts_.push_back(std::make_unique<Part>(ins, outs, me == workers, me, logs.empty() ? nullptr : logs[me]));
        }
    }

    /// Adds a task of a worker, which is at work.
    void push(std::size_t me, Task task)
    {
        const std::lock_guard<std::mutex> held(parts_[me]->lock);
        parts_[me]->books.add_work();
        parts_[me]->tasks.push_back(std::move(task));
    }

    /// Does a task, and all that come of it, by a thread for each worker. What a task throws is thrown here.
    void run(Task first)
    {
        begin(std::move(first));
        std::vector<std::thread> threads;
        for (std::size_t me = 0; me < workers_; me++) threads.emplace_back([this, me] { work(me); });
        while (!has_ended_ && !is_over()) std::this_thread::yield();
        has_ended_ = true;
        for (auto &thread : threads) thread.join();
        if (failure_) std::rethrow_exception(failure_);
    }

    /// Gives the root its task. It has nothing else to do.
    void begin(Task first) { parts_[workers_]->tasks.push_back(std::move(first)); }

    /// One turn of a worker: it takes or steals a task, works on it, and keeps its books. Says whether it had one.
    bool turn(std::size_t me)
    {
        Task task;
        const bool has_task = take(me, task) || steal_from_any(me, task);
        if (has_task) {
            task(me);
            parts_[me]->books.done();
        }
        settle(me);
        acknowledge(me);
        return has_task;
    }

    /// Says whether all is over, as the root sees it.
    bool is_over()
    {
        settle(workers_);
        return parts_[workers_]->books.is_over();
    }

private:
    /// A worker, or the root. Who reads or writes its tasks holds the lock.
    struct Part {
        Part(std::vector<std::uint64_t> ins, std::vector<std::uint64_t> its_outs, bool is_root, std::size_t number,
             std::ostream *log)
            : books(std::move(ins), its_outs, is_root, number, log), outs(std::move(its_outs))
        {
        }

        std::mutex lock;
        std::deque<Task> tasks;
        chipfire::Books books;
        const std::vector<std::uint64_t> outs;
    };

    std::uint64_t edge(std::size_t tail, std::size_t head) const { return tail * workers_ + head; }

    /// Takes the newest task of the worker's own.
    bool take(std::size_t me, Task &task)
    {
        const std::lock_guard<std::mutex> held(parts_[me]->lock);
        if (parts_[me]->tasks.empty()) return false;
        task = std::move(parts_[me]->tasks.back());
        parts_[me]->tasks.pop_back();
        return true;
    }

    /// Steals the oldest task of another part. That part sends it: with a task it is at work.
    bool steal(std::size_t me, std::size_t victim, Task &task)
    {
        {
            const std::lock_guard<std::mutex> held(parts_[victim]->lock);
            if (parts_[victim]->tasks.empty()) return false;
            parts_[victim]->books.sent(edge(victim, me));
            task = std::move(parts_[victim]->tasks.front());
            parts_[victim]->tasks.pop_front();
            parts_[victim]->books.done();
        }
        parts_[me]->books.got(edge(victim, me));
        return true;
    }

    bool steal_from_any(std::size_t me, Task &task)
    {
        for (std::size_t step = 1; step <= workers_; step++) {
            if (steal(me, (me + step) % (workers_ + 1), task)) return true;
        }
        return false;
    }

    /// Settles what the heads have acknowledged.
    void settle(std::size_t me)
    {
        for (const std::uint64_t out : parts_[me]->outs) parts_[me]->books.settled(out, acked_[out]);
    }

    /// Acknowledges all that may be.
    void acknowledge(std::size_t me)
    {
        for (const auto &it : parts_[me]->books.acknowledge()) acked_[it.edge] = it.count;
    }

    /// The loop of a worker's thread.
    void work(std::size_t me)
    {
        try {
            while (!has_ended_) {
                if (!turn(me)) std::this_thread::yield();
            }
        } catch (...) {
            const std::lock_guard<std::mutex> held(of_failure_);
            failure_ = std::current_exception();
            has_ended_ = true;
        }
    }

    const std::size_t workers_;
    std::vector<std::unique_ptr<Part>> parts_;
    /// How many messages of each edge its head has acknowledged: the head writes, and the tail reads.
    std::vector<std::atomic<std::uint64_t>> acked_;
    std::atomic<bool> has_ended_{false};
    std::mutex of_failure_;
    std::exception_ptr failure_;
};

/// Queens on the first lines, and the squares of the next line that they attack: straight, and by both diagonals.
struct Board {
    unsigned lines, straight, left, right;
};

/// Tries each square of the next line. What follows is a task of its own.
static void place(Pool &pool, std::size_t me, Board at, std::atomic<unsigned> &ways)
{
    const unsigned side = 8;
    if (at.lines == side) ways++;
    for (unsigned square = 1; at.lines < side && square < 1u << side; square <<= 1) {
        if ((at.straight | at.left | at.right) & square) continue;
        const Board next{at.lines + 1, at.straight | square, (at.left | square) << 1, (at.right | square) >> 1};
        pool.push(me, [&pool, next, &ways](std::size_t its) { place(pool, its, next, ways); });
    }
}

int main()
{
    Pool pool(3);
    std::atomic<unsigned> ways{0};
    pool.run([&](std::size_t me) { place(pool, me, Board{0, 0, 0, 0}, ways); });
    std::cout << ways << " ways\n";
    return 0;
}
