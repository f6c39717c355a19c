/* Threads take blocks of all sizes from the pools of bindings/c/pools.c, write them, let them grow and shrink, and free them. Each block must keep
 * what was written, pages that are free must serve again, and those of an emptied pool must go back to the system. Processes that are forked meanwhile
 * have their pools.
 *
 *     cc -Wl,--wrap=malloc,--wrap=realloc,--wrap=free tests/pools.c -lpthread -o out/pools && out/pools [STEPS] */
#include "../bindings/c/pools.c"

#include <stdio.h>
#include <sys/wait.h>
#include <unistd.h>

enum { THREADS = 4, BLOCKS = 30, FORKS = 50 };

struct block {
    unsigned char *at;
    size_t size;
    unsigned char mark;
};

static void expect(bool is_so, const char *what) {
    if (is_so) return;
    fprintf(stderr, "not so: %s\n", what);
    exit(1);
}

static uint64_t draw(uint64_t *seed) {
    uint64_t it = *seed += 0x9e3779b97f4a7c15;
    it = (it ^ (it >> 30)) * 0xbf58476d1ce4e5b9;
    it = (it ^ (it >> 27)) * 0x94d049bb133111eb;
    return it ^ (it >> 31);
}

/* Below the least size of a pool's block, or above the largest one, or between. */
static size_t any_size(uint64_t *seed) {
    switch (draw(seed) % 8) {
    case 0: return 1 + draw(seed) % LEAST;
    case 1: return LEAST - 2 + draw(seed) % 4;
    case 2: return draw(seed) % 40 ? MOST - draw(seed) % PAGE : MOST + 1 + draw(seed) % MOST;
    default: return LEAST + draw(seed) % (1 << (16 + draw(seed) % 5));
    }
}

/* The first and last byte, and one of each page. */
static void write_marks(struct block *block) {
    for (size_t at = 0; at < block->size; at += PAGE) block->at[at] = block->mark;
    block->at[block->size - 1] = block->mark;
}

static void check_marks(const struct block *block, size_t size) {
    for (size_t at = 0; at < size; at += PAGE) expect(block->at[at] == block->mark, "a block keeps what was written");
}

static void change(struct block *block, uint64_t *seed) {
    if (!block->at) {
        *block = (struct block){malloc(block->size = any_size(seed)), block->size, (unsigned char)draw(seed)};
    } else if (draw(seed) % 4 == 0) {
        size_t had = block->size;
        block->size = any_size(seed);
        block->at = realloc(block->at, block->size);
        check_marks(block, had < block->size ? had : block->size);
    } else {
        check_marks(block, block->size);
        expect(block->at[block->size - 1] == block->mark, "a block keeps its last byte");
        free(block->at);
        *block = (struct block){NULL, 0, 0};
        return;
    }
    expect(block->at, "there is memory");
    write_marks(block);
}

static int steps = 5000;

static void *change_all(void *number) {
    uint64_t seed = (uint64_t)(uintptr_t)number;
    struct block blocks[BLOCKS] = {{NULL, 0, 0}};
    for (int step = 0; step < steps; step++) change(&blocks[draw(&seed) % BLOCKS], &seed);
    for (int at = 0; at < BLOCKS; at++) free(blocks[at].at);
    return NULL;
}

/* How many bytes the process has in memory. */
static size_t resident(void) {
    size_t all = 0, here = 0;
    FILE *file = fopen("/proc/self/statm", "r");
    expect(file && fscanf(file, "%zu %zu", &all, &here) == 2, "the system says how many pages are here");
    fclose(file);
    return here * (size_t)sysconf(_SC_PAGESIZE);
}

/* Whether each pool has one free run, as a new one. */
static bool are_empty(void) {
    for (struct pool *pool = first; pool; pool = pool->next)
        if (pool->runs[HEAD] != PAGES - HEAD) return false;
    return first != NULL;
}

static size_t pools(void) {
    size_t count = 0;
    for (struct pool *pool = first; pool; pool = pool->next) count++;
    return count;
}

#ifndef __SANITIZE_THREAD__
/* Forks while other threads take and free blocks. If a child found the lock held, it would wait for ever: the alarm ends it. */
static void fork_often(void) {
    for (int at = 0; at < FORKS; at++) {
        pid_t child = fork();
        if (child == 0) {
            alarm(60);
            char *block = malloc(MOST / 8);
            if (block) block[0] = 1;
            free(block);
            _exit(block == NULL);
        }
        int status = 1;
        expect(child > 0 && waitpid(child, &status, 0) == child && status == 0, "a child has its pools");
    }
}
#endif

int main(int count, char **words) {
    if (count > 1) steps = atoi(words[1]);
    pthread_t threads[THREADS];
    for (size_t at = 0; at < THREADS; at++) expect(!pthread_create(&threads[at], NULL, change_all, (void *)at), "a thread starts");
#ifndef __SANITIZE_THREAD__
    /* (it takes the parent's threads for lost ones of the child) */
    fork_often();
#endif
    for (size_t at = 0; at < THREADS; at++) pthread_join(threads[at], NULL);
    expect(are_empty(), "what is freed is joined");
    size_t had = pools(), before = resident();
    char *blocks[20];
    for (int at = 0; at < 20; at++) memset(blocks[at] = malloc(MOST / 2), 1, MOST / 2);
    expect(resident() > before + 10 * MOST / 2, "what is written is in memory");
    for (int at = 0; at < 20; at++) free(blocks[at]);
    expect(pools() <= (had < 4 ? 4 : had), "freed pages serve again");
#ifndef __SANITIZE_THREAD__
    /* (it has memory of its own for what was written) */
    expect(resident() < before + 4 * HUGE_PAGE, "an emptied pool's pages go back");
#endif
    return 0;
}
