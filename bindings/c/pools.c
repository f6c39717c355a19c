/* Pools of memory for what is as large as a table. tools/library.py links it between the kit's heap and malloc: a call of malloc in the
 * library becomes one of `__wrap_malloc`, and `__real_malloc` is the program's.
 *
 * All threads share the pools, so the table that a thread frees serves another thread next, and its pages needn't be cleared again. (malloc has memory
 * for each thread.) They lie in huge pages if the system has them: a search goes to some places far apart, and a processor
 * remembers where few pages are. What is smaller or larger is malloc's, and so is what no pool can have. */
#define _GNU_SOURCE
#include <pthread.h>
#include <stdbool.h>
#include <stddef.h>
#include <stdint.h>
#include <stdlib.h>
#include <string.h>
#include <sys/mman.h>

extern void *__real_malloc(size_t size);
extern void *__real_realloc(void *block, size_t size);
extern void __real_free(void *block);

#define PAGE ((size_t)1 << 12)
#define HUGE_PAGE ((size_t)1 << 21)
#define POOL ((size_t)1 << 25)
#define LEAST ((size_t)1 << 15)
#define MOST (POOL / 4)
#define PAGES ((int)(POOL / PAGE))

/* A pool begins with this, on a boundary of huge pages. Its pages are in runs, of which no two free ones are neighbours. */
struct pool {
    struct pool *next;
    /* From this page on none was written since the system gave them. */
    int written;
    /* No free run has more pages than this. */
    int most;
    /* At the first and the last page of a run: how many pages it has, and less than 0 if it is used (Knuth's boundary tags, 1973). */
    int16_t runs[PAGES];
};

#define HEAD ((int)((sizeof(struct pool) + PAGE - 1) / PAGE))

static pthread_mutex_t lock = PTHREAD_MUTEX_INITIALIZER;
/* Held by the lock. The oldest one is first, and is filled first. */
static struct pool *first;

static void hold(void) {
    pthread_mutex_lock(&lock);
}

static void let_go(void) {
    pthread_mutex_unlock(&lock);
}

/* A child that another thread's `fork` makes finds the pools whole, as it does with malloc. */
__attribute__((constructor)) static void be_whole_at_forks(void) {
    pthread_atfork(hold, let_go, let_go);
}

static void tag(struct pool *pool, int at, int run) {
    pool->runs[at] = pool->runs[at + abs(run) - 1] = (int16_t)run;
}

static struct pool *make_pool(void) {
    char *room = mmap(NULL, POOL + HUGE_PAGE, PROT_READ | PROT_WRITE, MAP_PRIVATE | MAP_ANONYMOUS | MAP_NORESERVE, -1, 0);
    if (room == MAP_FAILED) return NULL;
    struct pool *pool = (struct pool *)(room + (HUGE_PAGE - (uintptr_t)room % HUGE_PAGE) % HUGE_PAGE);
#ifdef MADV_HUGEPAGE
    madvise(pool, POOL, MADV_HUGEPAGE);
#endif
    pool->written = HEAD;
    pool->most = PAGES - HEAD;
    tag(pool, 0, -HEAD);
    tag(pool, HEAD, PAGES - HEAD);
    return pool;
}

/* The first free run that has so many pages, or 0. */
static int find(struct pool *pool, int pages) {
    if (pool->most < pages) return 0;
    int most = 0;
    for (int at = HEAD; at < PAGES; at += abs(pool->runs[at])) {
        int run = pool->runs[at];
        if (run >= pages) return at;
        if (run > most) most = run;
    }
    pool->most = most;
    return 0;
}

/* Pages of this pool that are side by side, or NULL. */
static void *take(struct pool *pool, int pages) {
    int at = find(pool, pages);
    if (!at) return NULL;
    int left = pool->runs[at] - pages;
    tag(pool, at, -pages);
    if (left) tag(pool, at + pages, left);
    if (pool->written < at + pages) pool->written = at + pages;
    return (char *)pool + (size_t)at * PAGE;
}

/* Frees a run and joins it with its free neighbours. If much at the pool's end is free then, its pages go back to the system. */
static void give_back(struct pool *pool, int at) {
    int end = at - pool->runs[at];
    if (end < PAGES && pool->runs[end] > 0) end += pool->runs[end];
    if (pool->runs[at - 1] > 0) at -= pool->runs[at - 1];
    tag(pool, at, end - at);
    if (pool->most < end - at) pool->most = end - at;
    if (end == PAGES && (size_t)(pool->written - at) * PAGE >= MOST) {
        /* but for the huge page that has used ones too */
        size_t kept = ((size_t)at * PAGE + HUGE_PAGE - 1) / HUGE_PAGE * HUGE_PAGE;
        madvise((char *)pool + kept, POOL - kept, MADV_DONTNEED);
        pool->written = (int)(kept / PAGE);
    }
}

/* Pages of a pool, or NULL. */
static void *take_anywhere(int pages) {
    struct pool **at = &first;
    void *block = NULL;
    hold();
    for (; *at && !block; at = &(*at)->next) block = take(*at, pages);
    if (!block && (*at = make_pool())) block = take(*at, pages);
    let_go();
    return block;
}

/* The pool that has this block, under the lock, or NULL. */
static struct pool *pool_of(void *block) {
    struct pool *pool = first;
    while (pool && (uintptr_t)block - (uintptr_t)pool >= POOL) pool = pool->next;
    return pool;
}

/* How many bytes of a pool the block has, or 0 if it is malloc's. Then it is freed, if that is asked for. */
static size_t room_of(void *block, bool is_freed) {
    /* what a pool has begins with a page */
    if (!block || (uintptr_t)block % PAGE) return 0;
    size_t room = 0;
    hold();
    struct pool *pool = pool_of(block);
    if (pool) {
        int at = (int)(((uintptr_t)block - (uintptr_t)pool) / PAGE);
        room = (size_t)-pool->runs[at] * PAGE;
        if (is_freed) give_back(pool, at);
    }
    let_go();
    return room;
}

void *__wrap_malloc(size_t size) {
    void *block = LEAST <= size && size <= MOST ? take_anywhere((int)((size + PAGE - 1) / PAGE)) : NULL;
    return block ? block : __real_malloc(size);
}

void __wrap_free(void *block) {
    if (!room_of(block, true)) __real_free(block);
}

void *__wrap_realloc(void *block, size_t size) {
    size_t room = room_of(block, false);
    if (room >= size && room > 0) return block;
    if (block && !room) return __real_realloc(block, size);
    void *next = __wrap_malloc(size);
    if (next && block) {
        memcpy(next, block, room);
        __wrap_free(block);
    }
    return next;
}
