/* The calls of ist.h for C++17, by objects that own their handles. Header only.
 *
 *     ist::tree tree(1000000);
 *     ist::pass pass(tree);
 *     if (!pass.put(7, 70)) ...   // the tree has too few words left: give all passes back, and reopen
 *     std::optional<std::uint64_t> value = pass.find(7);
 *
 * Objects are moved and never copied. Each thread calls the tree by a pass of its own. A `tree` may be used by several threads at
 * a time, a pass, a note or a shot by one. A pass or a shot gives itself back when it is destroyed, and then serves again: up to
 * 2^32 - 1 may exist at a time. The memory of a tree is freed with the last object of it. An object that was moved from may only be assigned to or destroyed.
 *
 * Only constructors throw ist::error; other calls return what happened. What returns a vector may also throw std::bad_alloc. */
#ifndef IST_HPP
#define IST_HPP

#include "ist.h"
#include <exception>
#include <memory>
#include <mutex>
#include <new>
#include <optional>
#include <utility>
#include <vector>

namespace ist {

using entry = ist_entry;
using shortage = ist_shortage;
using stats = ist_stats;

/* Why an object wasn't made: the status that the call of ist.h returned. */
class error : public std::exception {
public:
    explicit error(std::uint32_t status) noexcept : status_(status) {}
    std::uint32_t status() const noexcept { return status_; }
    const char *what() const noexcept override {
        switch (status_) {
        case IST_MEMORY: return "luskadorv: out of memory";
        case IST_SMALL: return "luskadorv: the tree of the pairs takes more words";
        case IST_FULL: return "luskadorv: too few words of the tree are left";
        default: return "luskadorv: the tree is closed, or a number is too large";
        }
    }

private:
    std::uint32_t status_;
};

/* What an update returns. It is true if the update happened: then `before` is what the key had. Else the tree had too few words
 * left, and `why` has the numbers. */
struct update {
    bool done;
    std::optional<std::uint64_t> before;
    shortage why;
    explicit operator bool() const noexcept { return done; }
};

namespace detail {

inline void check(std::uint32_t status) {
    if (status != IST_DONE) throw error(status);
}

inline std::optional<std::uint64_t> value_of(const ist_result &result) {
    return result.some ? std::optional<std::uint64_t>(result.value) : std::nullopt;
}

/* A tree with its maker, by one call at a time. */
struct owner {
    std::mutex lock;
    ist_owner handle = {};
    std::size_t made = 0;        /* how many passes were made since the tree was opened */
    std::vector<ist_pass> spare; /* those that were given back, which serve again */
    owner() = default;
    owner(const owner &) = delete;
    ~owner() {
        for (ist_pass &it : spare) ist_free(&it);
        ist_free(&handle);
    }

    ist_pass take() {
        if (!spare.empty()) {
            ist_pass pass = spare.back();
            spare.pop_back();
            return pass;
        }
        spare.reserve(made + 1); /* so that giving it back takes no memory */
        ist_pass pass = {};
        check(ist_new_pass(&handle, &pass));
        made++;
        return pass;
    }

    /* Gives all passes back to the library, which wants so before it closes the tree. */
    void give_back_all() noexcept {
        for (ist_pass &it : spare) ist_give_back(&handle, &it);
        spare.clear();
    }
};

/* A pass's handle, which goes back to its owner in the end. */
class lent {
public:
    explicit lent(std::shared_ptr<owner> of) : owner_(std::move(of)) {
        std::lock_guard<std::mutex> guard(owner_->lock);
        handle = owner_->take();
    }
    lent(lent &&other) noexcept : handle(std::exchange(other.handle, {})), owner_(std::move(other.owner_)) {}
    lent &operator=(lent &&other) noexcept {
        lent old(std::move(*this));
        handle = std::exchange(other.handle, {});
        owner_ = std::move(other.owner_);
        return *this;
    }
    ~lent() {
        if (!owner_) return;
        std::lock_guard<std::mutex> guard(owner_->lock);
        ist_drop_shot(&handle); /* IST_MISUSE of a pass without a shot, which stays as it is */
        owner_->spare.push_back(handle);
    }

    ist_pass handle = {};

private:
    std::shared_ptr<owner> owner_;
};

/* Calls `each` on the pairs from `first` to `last` in increasing order of keys, until it returns false. `list` is ist_list_range
 * or ist_list_shot. */
template <class List, class Each> void each_of(List list, ist_pass *handle, std::uint64_t first, std::uint64_t last, Each each) {
    entry room[64];
    ist_piece piece = {};
    do {
        if (list(handle, first, last, room, 64, &piece) != IST_DONE) return;
        for (std::uint64_t i = 0; i < piece.count; i++) {
            if (!each(room[i])) return;
        }
        first = piece.next;
    } while (piece.more);
}

template <class List> std::vector<entry> all_of(List list, ist_pass *handle, std::uint64_t first, std::uint64_t last) {
    std::vector<entry> found;
    each_of(list, handle, first, last, [&](const entry &it) { return found.push_back(it), true; });
    return found;
}

} // namespace detail

/* A map with a fixed number of words, which threads share. */
class tree {
public:
    /* Opens a tree of these pairs (of two with one key the later), with this many words of 8 bytes, at most 2^28. */
    explicit tree(std::uint32_t words, const std::vector<entry> &entries = {}) : owner_(std::make_shared<detail::owner>()) {
        detail::check(ist_open(words, entries.data(), entries.size(), &owner_->handle));
    }

    /* Closes the tree and opens one with this many words, which has exactly the pairs that all calls left. Returns IST_BUSY if a
     * pass, a note or a shot of it exists; after IST_SMALL or IST_MEMORY the pairs are kept, and it may be called again. */
    [[nodiscard]] std::uint32_t reopen(std::uint32_t words) noexcept {
        std::lock_guard<std::mutex> guard(owner_->lock);
        owner_->give_back_all();
        std::uint32_t status = ist_reopen(&owner_->handle, words);
        if (status == IST_DONE) owner_->made = 0;
        return status;
    }

    /* Closes the tree. Returns IST_BUSY and IST_MEMORY as reopen does; the pairs are then kept. */
    [[nodiscard]] std::uint32_t close() noexcept {
        std::lock_guard<std::mutex> guard(owner_->lock);
        owner_->give_back_all();
        return ist_close(&owner_->handle);
    }

    /* Returns the pairs of a closed tree, in increasing order of keys; nothing if it isn't closed. */
    std::optional<std::vector<entry>> pairs() const {
        std::lock_guard<std::mutex> guard(owner_->lock);
        stats found = {};
        if (ist_count(&owner_->handle, &found) != IST_DONE) return std::nullopt;
        std::vector<entry> pairs(found.keys);
        std::uint64_t count = 0;
        ist_list(&owner_->handle, 0, pairs.data(), pairs.size(), &count);
        return pairs;
    }

    /* Returns how far a closed tree was filled; nothing if it isn't closed. */
    std::optional<stats> filled() const noexcept {
        std::lock_guard<std::mutex> guard(owner_->lock);
        stats found = {};
        return ist_count(&owner_->handle, &found) == IST_DONE ? std::optional<stats>(found) : std::nullopt;
    }

private:
    friend class pass;
    friend class shot;
    std::shared_ptr<detail::owner> owner_;
};

/* What a pass had seen, for another pass of the tree to meet. */
class note {
public:
    note(note &&other) noexcept : handle_(std::exchange(other.handle_, {})) {}
    note &operator=(note &&other) noexcept {
        std::swap(handle_, other.handle_);
        return *this;
    }
    ~note() { ist_free(&handle_); }

private:
    friend class pass;
    note() = default;
    ist_note handle_ = {};
};

/* What one thread calls a tree by. No call on keys blocks. */
class pass {
public:
    explicit pass(tree &of) : lent_(of.owner_) {}

    std::optional<std::uint64_t> find(std::uint64_t key) noexcept { return detail::value_of(ist_find(&lent_.handle, key)); }
    [[nodiscard]] update put(std::uint64_t key, std::uint64_t value) noexcept {
        return by([&](ist_pass *it, shortage *why) { return ist_put(it, key, value, why); });
    }
    [[nodiscard]] update remove(std::uint64_t key) noexcept {
        return by([&](ist_pass *it, shortage *why) { return ist_remove(it, key, why); });
    }

    /* Put the value only if the key has none, or the expected one; remove the key only if it has the expected value. If `before`
     * isn't what was expected, nothing was changed. */
    [[nodiscard]] update put_new(std::uint64_t key, std::uint64_t value) noexcept {
        return by([&](ist_pass *it, shortage *why) { return ist_put_new(it, key, value, why); });
    }
    [[nodiscard]] update put_if(std::uint64_t key, std::uint64_t expected, std::uint64_t value) noexcept {
        return by([&](ist_pass *it, shortage *why) { return ist_put_if(it, key, expected, value, why); });
    }
    [[nodiscard]] update remove_if(std::uint64_t key, std::uint64_t expected) noexcept {
        return by([&](ist_pass *it, shortage *why) { return ist_remove_if(it, key, expected, why); });
    }

    /* Returns the pair with the least key that is at least `key`, or with the greatest that is at most `key`. */
    std::optional<entry> at_least(std::uint64_t key) noexcept {
        entry found = {};
        return ist_at_least(&lent_.handle, key, &found) == IST_DONE ? std::optional<entry>(found) : std::nullopt;
    }
    std::optional<entry> at_most(std::uint64_t key) noexcept {
        entry found = {};
        return ist_at_most(&lent_.handle, key, &found) == IST_DONE ? std::optional<entry>(found) : std::nullopt;
    }

    /* The pairs with keys from `first` to `last`, both included, each at a moment of its own, in increasing order of keys. `list`
     * finds them in one walk. `each` gets an entry, and returns whether to go on. */
    std::vector<entry> list(std::uint64_t first, std::uint64_t last) {
        std::vector<entry> found(64);
        for (std::uint64_t count = 0, rooms = 64;; rooms = found.size()) {
            if (ist_list_live(&lent_.handle, first, last, found.data(), rooms, &count) == IST_MEMORY) throw std::bad_alloc();
            found.resize(count);
            if (count <= rooms) return found;
        }
    }
    template <class Each> void for_each(std::uint64_t first, std::uint64_t last, Each each) {
        detail::each_of(ist_list_range, &lent_.handle, first, last, each);
    }

    /* Returns how many words of the tree are left at one moment of the call. Other passes may take words from then on. */
    std::uint64_t room() noexcept {
        std::uint64_t words = 0;
        ist_room(&lent_.handle, &words);
        return words;
    }

    /* Makes a note of what the pass has seen; nothing if there is no memory. */
    std::optional<note> write_note() noexcept {
        note made;
        if (ist_write_note(&lent_.handle, &made.handle_) != IST_DONE) return std::nullopt;
        return std::optional<note>(std::move(made));
    }

    /* Learns the note: later calls come after those that the note's pass had made. Returns whether the note is of this tree; if
     * it isn't, nothing happens but that the note is freed. */
    bool meet(note learnt) noexcept {
        return ist_meet(&lent_.handle, &learnt.handle_) == IST_DONE;
    }

private:
    template <class Call> update by(Call call) noexcept {
        shortage why = {};
        ist_result result = call(&lent_.handle, &why);
        return {result.status == IST_DONE, detail::value_of(result), why};
    }
    detail::lent lent_;
};

/* The map as it was at one moment of the constructor, whatever others do from then on. */
class shot {
public:
    /* Takes it if `words` words are left, and else throws with IST_FULL: ask for ist_shot_words of the tree's pairs, and for the
     * words of updates that are made meanwhile. A shot that runs out of words makes the tree read-only. */
    shot(tree &of, std::uint64_t words) : lent_(of.owner_) {
        shortage why = {};
        detail::check(ist_take_shot(&lent_.handle, words, &why));
    }

    std::uint64_t size() noexcept {
        std::uint64_t count = 0;
        ist_count_shot(&lent_.handle, &count);
        return count;
    }
    std::optional<std::uint64_t> find(std::uint64_t key) noexcept {
        std::optional<std::uint64_t> found;
        for_each(key, key, [&](const entry &it) { return found = it.value, true; });
        return found;
    }

    /* As those of a pass, and all of one moment. */
    std::vector<entry> list(std::uint64_t first, std::uint64_t last) {
        return detail::all_of(ist_list_shot, &lent_.handle, first, last);
    }
    template <class Each> void for_each(std::uint64_t first, std::uint64_t last, Each each) {
        detail::each_of(ist_list_shot, &lent_.handle, first, last, each);
    }

private:
    detail::lent lent_;
};

} // namespace ist
#endif
