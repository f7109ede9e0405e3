#include "stack.hpp"
#include <cstdint>
#include <cstdio>
#include <cstdlib>
#include <cstring>
#include <pthread.h>
#include <sys/mman.h>

namespace {

constexpr size_t SIZE = 4 << 20;
constexpr uint8_t PATTERN = 0xA7;

struct Job {
    const std::function<void()> *call;
    const uint8_t *frame;
};

void *enter(void *p)
{
    Job *job = static_cast<Job *>(p);
    job->frame = static_cast<const uint8_t *>(__builtin_frame_address(0));
    (*job->call)();
    return nullptr;
}

} // namespace

size_t stack_used(const std::function<void()> &call)
{
    void *stack = mmap(nullptr, SIZE, PROT_READ | PROT_WRITE, MAP_PRIVATE | MAP_ANONYMOUS, -1, 0);
    if (stack == MAP_FAILED)
        std::abort();
    std::memset(stack, PATTERN, SIZE);
    pthread_attr_t attr;
    pthread_t thread;
    Job job{&call, nullptr};
    if (pthread_attr_init(&attr) || pthread_attr_setstack(&attr, stack, SIZE) ||
        pthread_create(&thread, &attr, enter, &job) || pthread_join(thread, nullptr)) {
        std::fprintf(stderr, "no thread for the measure of the stack\n");
        std::exit(1);
    }
    const uint8_t *low = static_cast<const uint8_t *>(stack);
    while (low < job.frame && *low == PATTERN)
        low++;
    size_t used = size_t(job.frame - low);
    pthread_attr_destroy(&attr);
    munmap(stack, SIZE);
    return used;
}
