// Times a message that two processes hand to and fro, without and with books around it.
//
//     messages COUNT
//
// It prints two numbers: the microseconds of a message by a deque with a lock, and of one that the books of both processes
// know of, too.
#include <chipfire.hpp>

#include <chrono>
#include <cstdint>
#include <cstdio>
#include <cstdlib>
#include <deque>
#include <mutex>

/// The edges: from the root to the left process, and between the two.
static const std::uint64_t begins = 0, to_right = 1, to_left = 2;

/// What is sent and not yet received.
class Line {
public:
    void put(std::uint64_t number)
    {
        const std::lock_guard<std::mutex> held(lock_);
        numbers_.push_back(number);
    }

    std::uint64_t take()
    {
        const std::lock_guard<std::mutex> held(lock_);
        const std::uint64_t number = numbers_.front();
        numbers_.pop_front();
        return number;
    }

private:
    std::mutex lock_;
    std::deque<std::uint64_t> numbers_;
};

/// Hands numbers over until they reach the count.
static void hand_over(std::uint64_t count)
{
    Line lines[2];
    lines[0].put(0);
    for (std::uint64_t number = 0; number < count; number++) lines[1 - number % 2].put(lines[number % 2].take() + 1);
}

/// A process: its books, the messages to it, and the edges from the other and to it.
struct Process {
    chipfire::Books books;
    Line line;
    std::uint64_t in, out;
};

/// Passes what a process may acknowledge on to the tails of the edges.
static void acknowledge(Process &head, Process &tail, chipfire::Books &root)
{
    for (const auto &[edge, count] : head.books.acknowledge()) {
        (edge == begins ? root : tail.books).settled(edge, count);
    }
}

/// Hands numbers over until they reach the count, with books. Returns whether the root knows the end.
static bool hand_over_in_books(std::uint64_t count)
{
    chipfire::Books root({}, {begins}, true);
    Process left{{{begins, to_left}, {to_right}}, {}, to_left, to_right};
    Process right{{{to_right}, {to_left}}, {}, to_right, to_left};
    Process *processes[] = {&left, &right};
    root.sent(begins);
    root.done();
    left.line.put(0);
    for (std::uint64_t number = 0; number <= count; number++) {
        Process &me = *processes[number % 2], &other = *processes[1 - number % 2];
        const std::uint64_t got = me.line.take();
        me.books.got(got == 0 ? begins : me.in);
        if (got < count) {
            me.books.sent(me.out);
            other.line.put(got + 1);
        }
        me.books.done();
        acknowledge(me, other, root);
    }
    acknowledge(right, left, root);
    acknowledge(left, right, root);
    return root.is_over();
}

/// Returns the microseconds of each of `count` messages since `begun`.
static double micros_since(std::chrono::steady_clock::time_point begun, std::uint64_t count)
{
    const std::chrono::duration<double, std::micro> taken = std::chrono::steady_clock::now() - begun;
    return taken.count() / static_cast<double>(count);
}

int main(int argc, char **argv)
{
    const std::uint64_t count = argc == 2 ? std::strtoull(argv[1], nullptr, 10) : 0;
    if (count == 0) return 2;
    const auto begun = std::chrono::steady_clock::now();
    hand_over(count);
    const double plain = micros_since(begun, count);
    const auto again = std::chrono::steady_clock::now();
    const bool is_over = hand_over_in_books(count);
    const double in_books = micros_since(again, count);
    std::printf("%.4f %.4f\n", plain, in_books);
    return is_over ? 0 : 1;
}
