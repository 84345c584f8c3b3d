/* Rust's ArrayQueue, of the crate crossbeam-queue, through the calls of array_queue/src/lib.rs. */
#include "queue.hpp"

struct RustQueue;
extern "C" {
RustQueue *array_queue_open(std::size_t size);
void array_queue_close(RustQueue *queue);
bool array_queue_put(const RustQueue *queue, std::uint64_t item);
bool array_queue_get(const RustQueue *queue, std::uint64_t *item);
}

namespace {
class ArrayQueue : public Queue {
public:
    explicit ArrayQueue(unsigned size) : queue(array_queue_open(size)) {}
    ~ArrayQueue() override { array_queue_close(queue); }

    bool put(unsigned, std::uint64_t item) override { return array_queue_put(queue, item); }
    bool get(unsigned, std::uint64_t &item) override { return array_queue_get(queue, &item); }

private:
    RustQueue *queue;
};

const Entry entry = entry_of<ArrayQueue>(4, "Rust's ArrayQueue");
}
