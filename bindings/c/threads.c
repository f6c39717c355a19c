/* Threads put, find and remove keys of one tree. Then the passes go back, and the tree is closed and listed. Others read shots of
 * a tree while it is written.
 *
 *     bash tools/library.sh
 *     cc -O2 -Icrates/ist_c/include bindings/c/threads.c -Lout -lluskadorv -lpthread -o out/threads
 *     out/threads [KEYS]
 *
 * KEYS is how many keys each thread has, an even number: 10000 if none is named. The status is 0, or the number of the
 * first check that failed. */
#include "ist.h"
#include <pthread.h>
#include <stdio.h>
#include <stdlib.h>

enum { THREADS = 4, WORDS = 16000000 };

/* How many keys each thread has. */
static uint64_t keys = 10000;

struct worker {
    ist_pass pass;
    uint64_t number;
};

static void check(bool holds, int number) {
    if (holds) return;
    fprintf(stderr, "check %d failed\n", number);
    exit(number);
}

/* Each thread has keys of its own, `number` modulo THREADS: it puts them all, replaces them, and removes every other. */
static void *work(void *argument) {
    struct worker *worker = argument;
    ist_shortage why;
    for (uint64_t i = 0; i < keys; i++) {
        uint64_t key = i * THREADS + worker->number;
        ist_result put = ist_put(&worker->pass, key, i, &why);
        check(put.status == IST_DONE && !put.some, 10);
        put = ist_put(&worker->pass, key, i + 1, &why);
        check(put.status == IST_DONE && put.some && put.value == i, 11);
    }
    for (uint64_t i = 0; i < keys; i += 2) {
        ist_result removed = ist_remove(&worker->pass, i * THREADS + worker->number, &why);
        check(removed.status == IST_DONE && removed.some && removed.value == i + 1, 12);
    }
    for (uint64_t i = 0; i < keys; i++) {
        ist_result found = ist_find(&worker->pass, i * THREADS + worker->number);
        check(found.status == IST_DONE && found.some == (i % 2 == 1), 13);
        check(!found.some || found.value == i + 1, 14);
    }
    return NULL;
}

static void share(void) {
    ist_owner owner = {0};
    check(ist_open(WORDS, NULL, 0, &owner) == IST_DONE, 1);
    struct worker workers[THREADS] = {0};
    pthread_t threads[THREADS];
    for (int i = 0; i < THREADS; i++) {
        workers[i].number = (uint64_t)i;
        check(ist_new_pass(&owner, &workers[i].pass) == IST_DONE, 2);
    }
    for (int i = 0; i < THREADS; i++) check(pthread_create(&threads[i], NULL, work, &workers[i]) == 0, 3);
    for (int i = 0; i < THREADS; i++) check(pthread_join(threads[i], NULL) == 0, 4);
    for (int i = 0; i < THREADS; i++) check(ist_give_back(&owner, &workers[i].pass) == IST_DONE, 5);
    check(ist_close(&owner) == IST_DONE, 6);

    uint64_t left = THREADS * keys / 2, count = 0, read = 0;
    ist_entry room[64];
    for (;;) {
        check(ist_list(&owner, read, room, 64, &count) == IST_DONE && count == left, 7);
        if (read >= count) break;
        for (int i = 0; i < 64 && read < count; i++, read++) {
            uint64_t turn = 2 * (read / THREADS) + 1;
            check(room[i].key == turn * THREADS + read % THREADS && room[i].value == turn + 1, 8);
        }
    }
    ist_stats stats;
    check(ist_count(&owner, &stats) == IST_DONE && stats.keys == left && stats.words == WORDS, 9);
    check(stats.used > ist_words_for(left) && stats.used <= WORDS, 17);
    ist_free(&owner);
    printf("%d threads left %llu pairs, and used %llu words\n", THREADS, (unsigned long long)count, (unsigned long long)stats.used);
}

/* One counter that all threads raise, by compare-and-set. */
static void *count_up(void *argument) {
    struct worker *worker = argument;
    ist_shortage why;
    ist_result had = ist_put_new(&worker->pass, 7, 0, &why);
    check(had.status == IST_DONE, 15);
    for (uint64_t done = 0; done < keys; done++) {
        uint64_t value = ist_find(&worker->pass, 7).value;
        while ((had = ist_put_if(&worker->pass, 7, value, value + 1, &why)).value != value) value = had.value;
        check(had.status == IST_DONE && had.some, 16);
    }
    return NULL;
}

static void raise_one(void) {
    ist_owner owner = {0};
    ist_shortage why;
    check(ist_open(WORDS, NULL, 0, &owner) == IST_DONE, 30);
    struct worker workers[THREADS] = {0};
    pthread_t threads[THREADS];
    for (int i = 0; i < THREADS; i++) {
        check(ist_new_pass(&owner, &workers[i].pass) == IST_DONE, 31);
        check(pthread_create(&threads[i], NULL, count_up, &workers[i]) == 0, 32);
    }
    for (int i = 0; i < THREADS; i++) check(pthread_join(threads[i], NULL) == 0, 33);
    ist_result last = ist_remove_if(&workers[0].pass, 7, THREADS * keys, &why);
    check(last.status == IST_DONE && last.some && last.value == THREADS * keys, 34);
    check(!ist_find(&workers[0].pass, 7).some, 35);
    for (int i = 0; i < THREADS; i++) ist_free(&workers[i].pass);
    ist_free(&owner);
    printf("%d threads raised a counter to %llu\n", THREADS, (unsigned long long)last.value);
}

/* A tree that runs full: the refused put didn't happen, and finds go on. */
static void run_full(void) {
    ist_entry entries[3] = {{2, 20}, {1, 10}, {2, 21}};
    ist_owner owner = {0};
    ist_pass pass = {0};
    ist_shortage why = {0};
    check(ist_open(4, entries, 3, &owner) == IST_SMALL && !owner.full, 20);
    check(ist_open(200, entries, 3, &owner) == IST_DONE, 21);
    check(ist_new_pass(&owner, &pass) == IST_DONE, 22);
    uint64_t key = 10;
    ist_result put;
    while ((put = ist_put(&pass, key, key, &why)).status == IST_DONE) key++;
    check(put.status == IST_FULL && why.words == 200 && why.next + why.asked > why.words, 23);
    check(ist_find(&pass, key).status == IST_DONE && !ist_find(&pass, key).some, 24);
    check(ist_find(&pass, key - 1).value == key - 1 && ist_find(&pass, 2).value == 21, 25);
    check(ist_give_back(&owner, &pass) == IST_DONE && ist_close(&owner) == IST_DONE, 26);
    uint64_t count = 0;
    check(ist_list(&owner, 0, entries, 3, &count) == IST_DONE && count == key - 8, 27);
    check(entries[0].key == 1 && entries[1].value == 21 && entries[2].key == 10, 28);
    ist_free(&owner);
}

/* A tree that runs full goes on with more words, and keeps its pairs. */
static void reopen(void) {
    ist_entry entries[3] = {{2, 20}, {1, 10}, {3, 30}};
    ist_owner owner = {0};
    ist_pass pass = {0};
    ist_shortage why;
    check(ist_open(100, entries, 3, &owner) == IST_DONE && ist_new_pass(&owner, &pass) == IST_DONE, 60);
    uint64_t key = 10, words = 100;
    while (key < 1000) {
        ist_result put = ist_put(&pass, key, key, &why);
        if (put.status == IST_DONE) {
            key++;
            continue;
        }
        check(put.status == IST_FULL && ist_reopen(&owner, 200) == IST_BUSY, 61);
        check(ist_give_back(&owner, &pass) == IST_DONE, 62);
        words *= 2;
        check(ist_reopen(&owner, (uint32_t)words) == IST_DONE && ist_new_pass(&owner, &pass) == IST_DONE, 63);
    }
    for (uint64_t it = 10; it < key; it++) check(ist_find(&pass, it).value == it, 64);
    check(ist_find(&pass, 2).value == 20, 65);
    check(ist_give_back(&owner, &pass) == IST_DONE, 66);
    check(ist_reopen(&owner, 0x20000000) == IST_MISUSE && owner.full, 67);
    /* the words are too few for the pairs: the closed tree is kept */
    check(ist_reopen(&owner, 100) == IST_SMALL && owner.full, 68);
    check(ist_new_pass(&owner, &pass) == IST_MISUSE && !pass.full, 69);
    check(ist_reopen(&owner, 100) == IST_SMALL && ist_reopen(&owner, 100000) == IST_DONE, 70);
    check(ist_new_pass(&owner, &pass) == IST_DONE && ist_find(&pass, 999).value == 999, 71);
    check(ist_give_back(&owner, &pass) == IST_DONE && ist_reopen(&owner, 4) == IST_SMALL, 72);
    uint64_t count = 0;
    check(ist_close(&owner) == IST_DONE && ist_list(&owner, 0, entries, 3, &count) == IST_DONE, 73);
    check(count == 993 && entries[0].key == 1 && entries[2].value == 30, 74);
    check(ist_reopen(&owner, 1000) == IST_MISUSE && ist_close(&owner) == IST_MISUSE, 75);
    check(ist_list(&owner, 993, entries, 3, &count) == IST_DONE && ist_list(&owner, UINT64_MAX, entries, 3, &count) == IST_DONE, 76);
    check(ist_list(&owner, 992, entries, 3, &count) == IST_DONE && entries[0].key == 999 && entries[2].value == 30, 77);
    ist_free(&owner);
    printf("a tree went on with %llu words\n", (unsigned long long)words);
}

/* The next keys, and ranges. */
static void read_in_order(void) {
    ist_entry entries[4] = {{10, 1}, {20, 2}, {30, 3}, {UINT64_MAX, 4}}, room[3] = {{0}}, found = {7, 7};
    ist_owner owner = {0};
    ist_pass pass = {0};
    ist_piece piece = {0};
    ist_shortage why;
    check(ist_open(1000, entries, 4, &owner) == IST_DONE && ist_new_pass(&owner, &pass) == IST_DONE, 80);
    check(ist_at_most(&pass, 9, &found) == IST_NO_KEY && found.key == 7, 81);
    check(ist_at_most(&pass, 10, &found) == IST_DONE && found.key == 10 && found.value == 1, 82);
    check(ist_at_least(&pass, 11, &found) == IST_DONE && found.key == 20 && found.value == 2, 83);
    check(ist_at_least(&pass, 31, &found) == IST_DONE && found.key == UINT64_MAX, 84);
    check(ist_at_most(&pass, UINT64_MAX - 1, &found) == IST_DONE && found.key == 30, 85);
    check(ist_list_range(&pass, 0, UINT64_MAX, room, 0, &piece) == IST_MISUSE && piece.count == 0, 86);
    check(ist_list_range(&pass, 0, UINT64_MAX, room, 3, &piece) == IST_DONE, 87);
    check(piece.count == 3 && piece.more && piece.next == 31 && room[2].value == 3, 88);
    check(ist_list_range(&pass, piece.next, UINT64_MAX, room, 3, &piece) == IST_DONE, 89);
    check(piece.count == 1 && !piece.more && room[0].key == UINT64_MAX, 90);
    check(ist_list_range(&pass, 11, 19, room, 3, &piece) == IST_DONE && piece.count == 0 && !piece.more, 91);
    check(ist_list_range(&pass, 20, 10, room, 3, &piece) == IST_DONE && piece.count == 0 && !piece.more, 92);
    check(ist_remove(&pass, 20, &why).some && ist_at_least(&pass, 11, &found) == IST_DONE && found.key == 30, 93);
    check(ist_at_least((ist_pass *)&owner, 0, &found) == IST_MISUSE && owner.full, 94);
    ist_free(&pass);
    ist_free(&owner);
}

/* The words that are left: a put and a shot take some, a find and a list take none. */
static void use_words(void) {
    ist_entry entries[2] = {{1, 10}, {2, 20}};
    ist_owner owner = {0};
    ist_pass pass = {0};
    ist_shortage why = {0};
    uint64_t left = 7, less = 7, key = 10;
    check(ist_room(&pass, &left) == IST_MISUSE && left == 7 && !pass.full, 160);
    check(ist_open(1000, entries, 2, &owner) == IST_DONE && ist_new_pass(&owner, &pass) == IST_DONE, 161);
    check(ist_room((ist_pass *)&owner, &left) == IST_MISUSE && left == 7 && owner.full, 162);
    check(ist_room(&pass, &left) == IST_DONE && left == 1000 - ist_words_for(2), 163);
    ist_entry room[3] = {{7, 7}, {7, 7}, {7, 7}};
    uint64_t count = 7;
    check(ist_list_live(&pass, 0, UINT64_MAX, room, 1, &count) == IST_DONE && count == 2, 170);
    check(room[0].key == 1 && room[0].value == 10 && room[1].key == 7, 171);
    check(ist_list_live(&pass, 2, 9, room, 3, &count) == IST_DONE && count == 1 && room[0].value == 20 && room[1].key == 7, 172);
    check(ist_list_live(&pass, 3, 2, NULL, 0, &count) == IST_DONE && count == 0, 173);
    check(ist_find(&pass, 1).some && ist_room(&pass, &less) == IST_DONE && less == left, 164);
    check(ist_list_live((ist_pass *)&owner, 0, 9, room, 3, &count) == IST_MISUSE && count == 0 && room[0].key == 2, 174);
    /* a handle with a shot is no pass */
    check(ist_take_shot(&pass, 0, &why) == IST_DONE && ist_room(&pass, &less) == IST_MISUSE && less == left, 165);
    check(ist_drop_shot(&pass) == IST_DONE && ist_room(&pass, &less) == IST_DONE, 166);
    check(less < left && left - less <= ist_shot_words(2), 167);
    for (left = less; ist_put(&pass, key, key, &why).status == IST_DONE; key++, left = less) {
        check(ist_room(&pass, &less) == IST_DONE && less < left, 168);
    }
    /* the put that was refused says the same */
    check(ist_room(&pass, &less) == IST_DONE && less == why.words - why.next && less <= left && less < why.asked, 169);
    ist_free(&pass);
    ist_free(&owner);
}

/* A thread that raises values and puts new keys, for those who read shots meanwhile. */
enum { CELLS = 40, UNITS = 1000 };

static void *raise_and_put(void *argument) {
    struct worker *worker = argument;
    ist_shortage why;
    for (uint64_t i = 0; i < keys / 10; i++) {
        uint64_t from = (7 * i + worker->number) % CELLS;
        ist_result had = ist_find(&worker->pass, from);
        check(had.some && ist_put(&worker->pass, from, had.value + 1, &why).status == IST_DONE, 110);
        check(ist_put(&worker->pass, CELLS + i, i, &why).status == IST_DONE, 111);
    }
    return NULL;
}

/* The pairs of a shot, read in pieces of three. */
static uint64_t read_shot(ist_pass *shot, ist_entry *pairs, uint64_t most) {
    uint64_t count = 0, first = 0;
    ist_piece piece;
    do {
        check(count + 3 <= most && ist_list_shot(shot, first, UINT64_MAX, pairs + count, 3, &piece) == IST_DONE, 112);
        count += piece.count;
        first = piece.next;
    } while (piece.more);
    return count;
}

/* A shot stays as it is while another thread writes, and a later one has what was written. */
static void read_shots(void) {
    static ist_entry once[20000], again[20000];
    ist_entry entries[CELLS];
    for (uint64_t i = 0; i < CELLS; i++) entries[i] = (ist_entry){i, UNITS};
    ist_owner owner = {0};
    ist_pass reader = {0};
    struct worker worker = {.number = 3};
    pthread_t thread;
    ist_shortage why = {0};
    uint64_t count = 0;
    check(ist_open(WORDS, entries, CELLS, &owner) == IST_DONE && ist_new_pass(&owner, &reader) == IST_DONE, 100);
    check(ist_new_pass(&owner, &worker.pass) == IST_DONE, 101);
    check(ist_shot_words(CELLS) > 23 && ist_shot_words(UINT64_MAX) == 0, 102);
    check(ist_take_shot(&reader, WORDS, &why) == IST_FULL && why.asked == WORDS && why.words == WORDS && reader.full, 103);
    check(ist_take_shot(&reader, ist_shot_words(CELLS), &why) == IST_DONE, 104);
    check(pthread_create(&thread, NULL, raise_and_put, &worker) == 0, 105);
    for (int turn = 0; turn < 20; turn++) {
        check(ist_count_shot(&reader, &count) == IST_DONE && count == CELLS, 106);
        check(read_shot(&reader, once, 20000) == CELLS, 107);
        for (uint64_t i = 0; i < CELLS; i++) check(once[i].key == i && once[i].value == UNITS, 108);
    }
    check(ist_drop_shot(&reader) == IST_DONE && ist_take_shot(&reader, 0, &why) == IST_DONE, 113);
    check(ist_count_shot(&reader, &count) == IST_DONE && count >= CELLS && read_shot(&reader, once, 20000) == count, 114);
    check(pthread_join(thread, NULL) == 0, 115);
    /* what the other thread wrote since isn't in the shot */
    check(read_shot(&reader, again, 20000) == count, 116);
    for (uint64_t i = 0; i < count; i++) check(again[i].key == once[i].key && again[i].value == once[i].value, 117);
    check(ist_drop_shot(&reader) == IST_DONE && ist_take_shot(&reader, 0, &why) == IST_DONE, 118);
    check(ist_count_shot(&reader, &count) == IST_DONE && count == CELLS + keys / 10, 119);
    ist_piece piece = {0};
    check(ist_list_shot(&reader, CELLS, UINT64_MAX, once, 0, &piece) == IST_MISUSE && piece.count == 0, 120);
    check(ist_list_shot(&reader, 5, 4, once, 3, &piece) == IST_DONE && piece.count == 0 && !piece.more, 121);
    check(ist_list_shot(&reader, 5, 7, once, 3, &piece) == IST_DONE && piece.count == 3 && !piece.more, 122);
    check(ist_list_shot(&reader, 5, 8, once, 3, &piece) == IST_DONE && piece.more && piece.next == 8, 123);
    /* a handle with a shot is no pass, and a handle of a pass has no shot */
    check(ist_find(&reader, 5).status == IST_MISUSE && ist_take_shot(&reader, 0, &why) == IST_MISUSE && reader.full, 124);
    check(ist_close(&owner) == IST_BUSY, 125);
    check(ist_drop_shot(&reader) == IST_DONE && ist_drop_shot(&reader) == IST_MISUSE && ist_find(&reader, 5).some, 126);
    check(ist_list_shot(&reader, 5, 8, once, 3, &piece) == IST_MISUSE && piece.next == 8, 127);
    count = 7;
    check(ist_count_shot(&reader, &count) == IST_MISUSE && count == 7, 128);
    check(ist_give_back(&owner, &reader) == IST_DONE && ist_give_back(&owner, &worker.pass) == IST_DONE, 129);
    check(ist_close(&owner) == IST_DONE, 130);
    ist_free(&owner);
    printf("shots stayed as they were\n");
}

/* Calls by wrong or empty handles, and at a wrong time. */
static void misuse(void) {
    ist_entry entries[1] = {{5, 50}};
    ist_owner owner = {0};
    ist_pass one = {0}, two = {0};
    ist_note note = {0};
    ist_shortage why = {1, 2, 3};
    check(ist_open(0x20000000, entries, 1, &owner) == IST_MISUSE, 40);
    check(ist_open(1000, entries, 1, &owner) == IST_DONE, 41);
    check(ist_open(1000, entries, 1, &owner) == IST_MISUSE && owner.full, 42);
    check(ist_find(&one, 5).status == IST_MISUSE && !one.full, 43);
    check(ist_put(&one, 5, 5, &why).status == IST_MISUSE && why.words == 3, 44);
    check(ist_new_pass(&owner, &one) == IST_DONE && ist_new_pass(&owner, &one) == IST_MISUSE, 45);
    check(ist_new_pass(&owner, &two) == IST_DONE, 46);
    check(ist_find((ist_pass *)&owner, 5).status == IST_MISUSE && owner.full, 47);
    check(ist_write_note(&one, &note) == IST_DONE, 48);
    check(ist_close(&owner) == IST_BUSY && owner.full, 49);
    /* what isn't a note or a pass is kept, and so is one that comes to the wrong handle */
    check(ist_meet(&two, (ist_note *)&one) == IST_MISUSE && one.full && ist_find(&one, 5).some, 140);
    check(ist_meet((ist_pass *)&owner, &note) == IST_MISUSE && note.full && owner.full, 141);
    check(ist_give_back(&owner, (ist_pass *)&note) == IST_MISUSE && note.full, 142);
    check(ist_give_back((ist_owner *)&two, &one) == IST_MISUSE && one.full && ist_find(&one, 5).some, 143);
    check(ist_take_shot(&one, 0, &why) == IST_DONE && ist_give_back(&owner, &one) == IST_MISUSE, 144);
    check(ist_drop_shot(&one) == IST_DONE && ist_find(&one, 5).some, 145);
    ist_owner none = {0};
    check(ist_give_back(&none, &one) == IST_MISUSE && one.full && ist_meet((ist_pass *)&none, &note) == IST_MISUSE && note.full, 146);
    /* and so is one of another tree, of the same pairs, also if it was opened by ist_reopen */
    ist_owner other = {0};
    ist_pass stranger = {0};
    check(ist_open(1000, entries, 1, &other) == IST_DONE, 147);
    for (int turn = 0; turn < 2; turn++) {
        check(ist_new_pass(&other, &stranger) == IST_DONE && ist_meet(&stranger, &note) == IST_MISUSE && note.full, 148);
        check(ist_give_back(&owner, &stranger) == IST_MISUSE && stranger.full && ist_find(&stranger, 5).value == 50, 149);
        check(ist_give_back(&other, &one) == IST_MISUSE && one.full && ist_find(&one, 5).value == 50, 150);
        check(ist_give_back(&other, &stranger) == IST_DONE && ist_reopen(&other, 2000) == IST_DONE, 151);
    }
    check(ist_close(&other) == IST_DONE && ist_give_back(&other, &one) == IST_MISUSE && one.full, 152);
    ist_free(&other);
    check(ist_meet(&two, &note) == IST_DONE && !note.full, 50);
    check(ist_meet(&two, &note) == IST_MISUSE, 51);
    check(ist_give_back(&owner, &one) == IST_DONE && !one.full, 52);
    check(ist_give_back(&owner, &one) == IST_MISUSE, 53);
    check(ist_close(&owner) == IST_BUSY, 54);
    check(ist_put(&two, 5, 51, &why).value == 50, 55);
    /* a pass keeps the memory of its tree */
    ist_free(&owner);
    check(!owner.full && ist_find(&two, 5).value == 51, 56);
    ist_free(&two);
    ist_free(&two);
    check(ist_words_for(0) == 4 && ist_words_for(UINT64_MAX) == 0, 57);
    /* an open tree has no list, and nothing is counted */
    ist_stats stats = {1, 2, 3};
    uint64_t count = 7;
    check(ist_open(1000, entries, 1, &owner) == IST_DONE && ist_count(&owner, &stats) == IST_MISUSE && stats.used == 3, 58);
    check(ist_list(&owner, 0, entries, 1, &count) == IST_MISUSE && count == 7 && owner.full, 59);
    ist_free(&owner);
}

int main(int count, char **words) {
    if (count > 1) keys = strtoull(words[1], NULL, 10);
    share();
    raise_one();
    run_full();
    reopen();
    read_in_order();
    use_words();
    read_shots();
    misuse();
    return 0;
}
