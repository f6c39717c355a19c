/* What libluskadorv.a has beside the proved exports of crates/ist_c: the version, the numbers of trees, the memory of tables (pools.c), and
 * the mark of an unproved build. tools/library.py compiles it into the library. It isn't proved. */
#include "pools.c"

#include "ist.h"
#include <stdatomic.h>

uint32_t ist_version(void) {
    return IST_VERSION_NUMBER;
}

/* The exports of crates/ist_c that open a tree. They take its number from here, and by it the library finds out whether two handles
 * are of one tree: so no two trees of a process may have one number. */
uint32_t open_numbered(uint32_t words, const ist_entry *entries, size_t count, uint64_t number, ist_owner *out);
uint32_t reopen_numbered(ist_owner *owner, uint32_t words, uint64_t number);

static _Atomic uint64_t next_number;

uint32_t ist_open(uint32_t words, const ist_entry *entries, size_t count, ist_owner *out) {
    return open_numbered(words, entries, count, atomic_fetch_add(&next_number, 1), out);
}

uint32_t ist_reopen(ist_owner *owner, uint32_t words) {
    return reopen_numbered(owner, words, atomic_fetch_add(&next_number, 1));
}

#ifdef LUSKADORV_UNPROVED
#include <unistd.h>

/* Marks an unproved build for `nm`, and for a program that asks for it as a weak symbol. */
const char ist_unproved[] = "luskadorv: this program has an unproved build of the library; `bash tools/library.sh --wait` makes the proved one\n";

/* Says so when a program with it starts. */
__attribute__((constructor)) static void tell(void) {
    if (write(STDERR_FILENO, ist_unproved, sizeof ist_unproved - 1) < 0) return;
}
#endif
