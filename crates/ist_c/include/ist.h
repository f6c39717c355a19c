/* An ordered map from 64-bit keys to 64-bit values that threads share without locks.
 *
 * A handle starts as zeros:   ist_owner owner = {0};
 * It holds something while `full` is set. Its fields belong to the library: a caller never writes them, may move a handle by
 * copying it and forgetting the old one, and never gives one handle to two calls at a time, nor one handle twice to one call.
 * It may go from thread to thread by whatever orders their memory: a lock, the start or the join of a thread, a channel, an
 * atomic with release and acquire. (Only its holder uses what it points to. The words that threads share are sequentially
 * consistent atomics, and have the steps before such a move before those after it.) Each thread calls the tree by a pass of
 * its own, at the same time as others.
 *
 * The calls on one key are linearizable, those of all passes together: they have one order in which each replies as a map would,
 * and in which a call that returned before another began comes first. That is proved of the tree, also over ist_reopen. A pair
 * that a call on several keys reports was in the map at a moment of that call; only a shot has one moment for all.
 *
 * Each call finds out what its handles hold, and whether two handles are of one tree. If they aren't what it asks for, it returns
 * IST_MISUSE, every handle is as it was, and nothing is written. (Trees are numbered as they are opened. If a process has several
 * copies of the library, each counts for itself, and takes only handles of its own.)
 *
 * Pointers are never null, except that of a list or a room with 0 elements. No call may be made in a signal handler, or in a
 * process forked by one that has threads. */
#ifndef IST_H
#define IST_H

#ifndef __cplusplus
#include <stdbool.h>
#endif
#include <stddef.h>
#include <stdint.h>

#ifdef __cplusplus
extern "C" {
#endif

/* The version of this header, as text and as a number: 10000 for the first part, 100 for the second, 1 for the third. */
#define IST_VERSION "0.1.0"
#define IST_VERSION_NUMBER 100

/* Returns the IST_VERSION_NUMBER of the library that the program runs with. */
uint32_t ist_version(void);

/* What a call returns. */
enum ist_status {
    IST_DONE = 0,
    IST_MEMORY = 1, /* out of memory */
    IST_SMALL = 2,  /* the tree of the pairs takes more words */
    IST_BUSY = 3,   /* a pass or a note is out */
    IST_MISUSE = 4, /* a handle holds something else or nothing, or is of another tree; `out` is full; a number is too large; or a
                       room is empty */
    IST_FULL = 5,   /* too few words of the tree are left: the call didn't happen */
    IST_NO_KEY = 6  /* no such key has a value */
};

typedef struct ist_owner { bool full; void *at; } ist_owner; /* a tree with its maker; a closed tree; or its pairs */
typedef struct ist_pass { bool full; void *at; } ist_pass;   /* what one thread calls the tree by; a pass with its shot */
typedef struct ist_note { bool full; void *at; } ist_note;   /* what a pass had seen */

/* A key with its value. */
typedef struct ist_entry { uint64_t key, value; } ist_entry;

/* What a call on a key returns: an ist_status, whether the key had a value, and the value. */
typedef struct ist_result { uint32_t status; bool some; uint64_t value; } ist_result;

/* The numbers of a refusal: `asked` more words were needed, and the first free one of `words` words was `next`. */
typedef struct ist_shortage { uint64_t next, asked, words; } ist_shortage;

/* How many pairs of a range were written, and whether keys of it are left: then `next` is the key to go on from. */
typedef struct ist_piece { uint64_t count; bool more; uint64_t next; } ist_piece;

/* What is left of a closed tree: how many keys have values, how many words it had, and how many of these were used. */
typedef struct ist_stats { uint64_t keys, words, used; } ist_stats;

/* How many words a tree of this many pairs takes at least; 0 for 2^32 pairs or more. Updates take further words: some 60
 * each. */
uint64_t ist_words_for(uint64_t pairs);

/* Opens a tree of these pairs (of two with one key the later), with this many words of 8 bytes, at most 2^28. All its
 * memory is allocated here. Pairs whose keys rise are read where they are, and others copied and sorted first. */
uint32_t ist_open(uint32_t words, const ist_entry *entries, size_t count, ist_owner *out);

/* Makes a new pass. The status is IST_MEMORY also if 2^32 - 1 were made since the tree was opened, whether or not they were
 * given back: so keep a pass for the next thread rather than make one for each task. */
uint32_t ist_new_pass(ist_owner *owner, ist_pass *out);

/* Finds the key. Like all calls on keys it never blocks, allocates nothing, and always returns. */
ist_result ist_find(ist_pass *pass, uint64_t key);

/* Puts the value at the key, or removes the key, and returns what the key had. `why` is written if the status is
 * IST_FULL, and else left as it is. */
ist_result ist_put(ist_pass *pass, uint64_t key, uint64_t value, ist_shortage *why);
ist_result ist_remove(ist_pass *pass, uint64_t key, ist_shortage *why);

/* Puts the value at the key only if the key has no value (ist_put_new), or the expected one (ist_put_if); removes the key
 * only if it has the expected value. Each returns what the key had: if that isn't what was expected, the call was a find.
 * `why` is as above. */
ist_result ist_put_new(ist_pass *pass, uint64_t key, uint64_t value, ist_shortage *why);
ist_result ist_put_if(ist_pass *pass, uint64_t key, uint64_t expected, uint64_t value, ist_shortage *why);
ist_result ist_remove_if(ist_pass *pass, uint64_t key, uint64_t expected, ist_shortage *why);

/* Writes the pair with the least key that is at least `key`, or with the greatest that is at most `key`. If there is none the
 * status is IST_NO_KEY, and `found` is left as it is. The pair was in the map at some moment of the call, and each key between
 * was absent at a moment of its own. These calls allocate nothing and always return. */
uint32_t ist_at_least(ist_pass *pass, uint64_t key, ist_entry *found);
uint32_t ist_at_most(ist_pass *pass, uint64_t key, ist_entry *found);

/* Writes the pairs with keys from `first` to `last`, both included, in increasing order: as many as fit into the room, which has at
 * least one place. Each key has what the list says at a moment of its own. `piece` says how many were written, and at which key to
 * go on, at any time and by any pass. It allocates nothing. */
uint32_t ist_list_range(ist_pass *pass, uint64_t first, uint64_t last, ist_entry *room, size_t rooms, ist_piece *piece);

/* As ist_list_range, but finds the pairs in one walk, several times as fast if they are many, and has memory for all of them meanwhile:
 * writes as many as there is room for, and into `count` how many there are. Without memory (IST_MEMORY) nothing is written. Time never
 * goes back along the keys. So if nobody updates the tree meanwhile, these are its pairs, as ist_close would leave them. */
uint32_t ist_list_live(ist_pass *pass, uint64_t first, uint64_t last, ist_entry *room, size_t rooms, uint64_t *count);

/* Writes how many words of the tree are left at one moment of the call. Other passes may take words from then on; an update takes
 * some 60. It never blocks, allocates nothing, and always returns. */
uint32_t ist_room(ist_pass *pass, uint64_t *words);

/* How many words a shot of this many pairs takes at most, if its pass alone takes words; 0 for 2^32 pairs or more. Passes that
 * help at the same time may take more together. */
uint64_t ist_shot_words(uint64_t pairs);

/* Takes a shot: the map as it was at one moment of the call, whatever others do after it. The handle then holds the shot with its
 * pass. Until ist_drop_shot, other calls of a pass by it are IST_MISUSE; to go on meanwhile, make a second pass.
 *
 * The whole tree is rebuilt for those who go on. If fewer than `words` words are left, no shot is taken: the status is IST_FULL,
 * `why` is written, and the handle still holds the pass. If that many are left, and they are 14 or more, the status is IST_FULL only
 * if others take words meanwhile. If the rebuild runs out of words, the tree is read-only: each later update is IST_FULL. So ask for
 * the ist_shot_words of its pairs, and for the words of updates that are made meanwhile. */
uint32_t ist_take_shot(ist_pass *pass, uint64_t words, ist_shortage *why);

/* Writes how many pairs the shot has. */
uint32_t ist_count_shot(ist_pass *shot, uint64_t *count);

/* As ist_list_range, of the shot: all that it writes is of the shot's moment, whenever it is called. */
uint32_t ist_list_shot(ist_pass *shot, uint64_t first, uint64_t last, ist_entry *room, size_t rooms, ist_piece *piece);

/* Drops the shot. The handle then holds the pass as before. A handle with a shot can't be given back (ist_give_back is IST_MISUSE):
 * drop the shot first. */
uint32_t ist_drop_shot(ist_pass *shot);

/* Makes a note of what the pass has seen (ist_write_note), and lets a pass of the same tree learn it, which uses the note up
 * (ist_meet). The calls of the second pass then come after those that the first had made. */
uint32_t ist_write_note(ist_pass *pass, ist_note *out);
uint32_t ist_meet(ist_pass *pass, ist_note *note);

/* Gives the pass back to the owner that made it, which uses the pass up. */
uint32_t ist_give_back(ist_owner *owner, ist_pass *pass);

/* Closes the tree, once all passes are back and all notes are used up or freed, and opens one with this many words, at most
 * 2^28, that begins with exactly the pairs that all calls left. If none is opened (IST_SMALL, IST_MEMORY), the handle holds the
 * closed tree with all its pairs: ist_reopen and ist_close may be called again, and ist_new_pass is IST_MISUSE. */
uint32_t ist_reopen(ist_owner *owner, uint32_t words);

/* Closes the tree, once all passes are back and all notes are used up or freed. The handle then holds the pairs that are
 * left. If there is no memory for them (IST_MEMORY) it holds the closed tree, and the call may be made again. */
uint32_t ist_close(ist_owner *owner);

/* Writes the pairs of a closed tree from number `from` on, in increasing order of keys: as many as there is room for,
 * and into `count` how many there are in all. */
uint32_t ist_list(ist_owner *closed, uint64_t from, ist_entry *room, size_t rooms, uint64_t *count);

/* Writes how many pairs a closed tree left, how many words it had, and how many of these were used. */
uint32_t ist_count(ist_owner *closed, ist_stats *stats);

/* Drops what a handle of any kind holds, and leaves it empty. The memory of a tree is freed with the last handle of it. A pass
 * that is freed is never back, so its tree can't be closed any more. */
void ist_free(void *handle);

#ifdef __cplusplus
}
#endif
#endif
