/* Times a plain ring between two threads: `ring CAPACITY`. It prints the nanoseconds that 250,000 packets and a last item
 * took, from before the threads start until both have ended. The head and the tail are sequentially consistent, 64 bytes
 * apart from each other and from the slots; a slot is eight plain words. */
#define _GNU_SOURCE
#include <pthread.h>
#include <sched.h>
#include <stdatomic.h>
#include <stdint.h>
#include <stdio.h>
#include <stdlib.h>
#include <time.h>

enum { PACKETS = 250000, WIDTH = 8, TAIL = 0, HEAD = 8, SLOTS = 16 };

static uint64_t capacity;
static uint64_t *words;

static _Atomic uint64_t *at(int word) { return (_Atomic uint64_t *)&words[word]; }

/* a read of the number-th word of 8 bytes, or the last item */
static void packet(uint64_t number, uint64_t *slot) {
    uint64_t address = number % 131072 * 8;
    slot[0] = number < PACKETS ? (1ULL << 32) + 0x400061 : 2ULL << 32;
    slot[1] = number < PACKETS ? address : 0;
    slot[2] = number < PACKETS ? address : 0;
    for (int j = 3; j < WIDTH; j++)
        slot[j] = 0;
}

static int push(uint64_t sent, const uint64_t *item) {
    if (sent - atomic_load(at(HEAD)) == capacity)
        return 0;
    uint64_t *slot = words + SLOTS + sent % capacity * WIDTH;
    for (int j = 0; j < WIDTH; j++)
        slot[j] = item[j];
    atomic_store(at(TAIL), sent + 1);
    return 1;
}

static int pop(uint64_t received, uint64_t *item) {
    if (received == atomic_load(at(TAIL)))
        return 0;
    const uint64_t *slot = words + SLOTS + received % capacity * WIDTH;
    for (int j = 0; j < WIDTH; j++)
        item[j] = slot[j];
    atomic_store(at(HEAD), received + 1);
    return 1;
}

static void *produce(void *unused) {
    (void)unused;
    uint64_t item[WIDTH];
    for (uint64_t sent = 0; sent <= PACKETS; sent++) {
        packet(sent, item);
        while (!push(sent, item))
            sched_yield();
    }
    return NULL;
}

static void *consume(void *unused) {
    (void)unused;
    uint64_t item[WIDTH], right[WIDTH];
    for (uint64_t received = 0; received <= PACKETS; received++) {
        while (!pop(received, item))
            sched_yield();
        packet(received, right);
        for (int j = 0; j < WIDTH; j++)
            if (item[j] != right[j])
                exit(1);
    }
    return NULL;
}

int main(int count, char **given) {
    capacity = count == 2 ? strtoull(given[1], NULL, 10) : 0;
    if (capacity == 0)
        return 1;
    words = calloc(SLOTS + capacity * WIDTH, sizeof *words);
    if (words == NULL)
        return 1;
    struct timespec start, end;
    pthread_t threads[2];
    clock_gettime(CLOCK_MONOTONIC, &start);
    if (pthread_create(&threads[0], NULL, produce, NULL) || pthread_create(&threads[1], NULL, consume, NULL))
        return 1;
    pthread_join(threads[0], NULL);
    pthread_join(threads[1], NULL);
    clock_gettime(CLOCK_MONOTONIC, &end);
    printf("%lld\n", (end.tv_sec - start.tv_sec) * 1000000000LL + end.tv_nsec - start.tv_nsec);
    return 0;
}
