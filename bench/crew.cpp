// A crew of threads once more, in C++: the yardstick of bench/run-threads. It plays what `chipfire run` plays, by the
// same steps, and writes the same bytes, for files that are right.
//
//     crew GRAPH CHIPS RING WORKERS
//
// The actors are those of actors.hpp and wait in one bounded queue. A worker takes one, gives it a turn, and puts it
// back, and yields after more idle turns in a row than there are actors; worker 0 polls the root after each of its turns.

#include <atomic>
#include <cstdint>
#include <cstdlib>
#include <memory>
#include <thread>
#include <vector>

#include "actors.hpp"

namespace {

// A bounded queue of actors for many threads without a lock. Each slot has a stamp, which says whether it is free for
// the next push, or full for the next pop, at this place; a place is a lap and, in its low bits, a slot. A call
// makes one try, and fails where another thread is in its way.
class Queue {
public:
    explicit Queue(std::size_t capacity) : capacity_(capacity), lap_(1), slots_(new Slot[capacity]) {
        while (lap_ < capacity + 1) lap_ *= 2;
        for (std::size_t i = 0; i < capacity; ++i) slots_[i].stamp = i;
    }

    bool try_push(Actor* actor) {
        std::uint64_t place = tail_.load();
        Slot& slot = slot_at(place);
        if (slot.stamp.load() != place || !tail_.compare_exchange_strong(place, after(place))) return false;
        slot.actor = actor;
        slot.stamp.store(place + 1);
        return true;
    }

    std::uint64_t capacity() const { return capacity_; }

    // The actor that has waited for longest, or nothing.
    Actor* try_pop() {
        std::uint64_t place = head_.load();
        Slot& slot = slot_at(place);
        if (slot.stamp.load() != place + 1 || !head_.compare_exchange_strong(place, after(place))) return nullptr;
        Actor* actor = slot.actor;
        slot.stamp.store(place + lap_);
        return actor;
    }

private:
    struct Slot {
        std::atomic<std::uint64_t> stamp;
        Actor* actor = nullptr;
    };

    Slot& slot_at(std::uint64_t place) { return slots_[place & (lap_ - 1)]; }

    std::uint64_t after(std::uint64_t place) const {
        const std::uint64_t index = place & (lap_ - 1);
        return index + 1 < capacity_ ? place + 1 : place - index + lap_;
    }

    std::uint64_t capacity_, lap_;
    std::unique_ptr<Slot[]> slots_;
    alignas(128) std::atomic<std::uint64_t> tail_{0};
    alignas(128) std::atomic<std::uint64_t> head_{0};
};

// A worker.
struct Worker {
    Words& words;
    Queue& queue;
    std::atomic<bool>& stop;
    Actor* kept = nullptr;
    std::uint64_t idle = 0;

    void work() {
        while (!stop.load()) one_turn();
    }

    void lead(Root& root) {
        do one_turn();
        while (!root.poll(words));
        stop.store(true);
    }

    // A turn of the actor that was kept, else of one from the queue. It is kept where it cannot be put back.
    void one_turn() {
        Actor* const actor = kept ? kept : queue.try_pop();
        kept = nullptr;
        const std::uint64_t work = actor ? actor->turn(words) : 0;
        if (actor && !queue.try_push(actor)) kept = actor;
        if (work != 0) {
            idle = 0;
        } else if (idle++ == queue.capacity()) {
            std::this_thread::yield();
            idle = 0;
        }
    }
};

}  // namespace

int main(int count, char** words_given) {
    if (count != 5) stop("crew GRAPH CHIPS RING WORKERS");
    const Graph graph = read_graph(words_given[1]);
    const std::vector<std::uint64_t> start = read_chips(words_given[2], graph.vertices);
    const std::uint64_t ring = std::strtoull(words_given[3], nullptr, 10);
    const std::size_t workers = std::strtoull(words_given[4], nullptr, 10);
    if (ring < 1 || ring > 64 || workers < 1 || workers > 64) stop("no such ring or workers");

    Words words(graph, start, ring);
    std::vector<Actor> actors = make_actors(graph);
    Queue queue(actors.size());
    for (Actor& actor : actors) queue.try_push(&actor);
    Root root(graph, start);
    std::atomic<bool> has_to_stop{false};

    std::vector<std::thread> threads;
    for (std::size_t i = 0; i < workers; ++i) {
        threads.emplace_back([&, i] {
            Worker worker{words, queue, has_to_stop};
            i == 0 ? worker.lead(root) : worker.work();
        });
    }
    for (std::thread& thread : threads) thread.join();

    return write_end(graph, start, root.finish(words));
}
