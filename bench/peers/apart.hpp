/* A run in a process of its own, so that a queue that stands still can be ended. */
#pragma once

#include "failure.hpp"

#include <functional>
#include <new>
#include <sys/mman.h>

/* Runs `work` in a process of its own. False if it was not over after this many seconds, and was ended. */
bool ends_within(double seconds, const std::function<void()> &work);

/* An object that such a process writes, and this one reads. */
template <class Object> class Shared {
public:
    Shared() {
        void *place = mmap(nullptr, sizeof(Object), PROT_READ | PROT_WRITE, MAP_SHARED | MAP_ANONYMOUS, -1, 0);
        if (place == MAP_FAILED)
            fail("there is no memory to share");
        object = new (place) Object{};
    }
    Shared(const Shared &) = delete;
    Shared &operator=(const Shared &) = delete;
    ~Shared() {
        object->~Object();
        munmap(object, sizeof(Object));
    }
    Object &operator*() const { return *object; }
    Object *operator->() const { return object; }

private:
    Object *object;
};
