/* Threads put, find and remove keys of one tree by the objects of ist.hpp, and a tree that runs full goes on with more words.
 *
 *     bash tools/library.sh
 *     c++ -std=c++17 -O2 -Icrates/ist_c/include bindings/cpp/threads.cpp -Lout -lluskadorv -pthread -o out/threads-cpp
 *     out/threads-cpp [KEYS]
 *
 * KEYS is how many keys each thread has, an even number: 1000 if none is named. The status is 0, or 1 if a check failed. */
#include "ist.hpp"
#include <cstdio>
#include <cstdlib>
#include <thread>

namespace {

constexpr std::uint64_t threads = 4, last_key = UINT64_MAX;

void check(bool holds, const char *what) {
    if (holds) return;
    std::fprintf(stderr, "failed: %s\n", what);
    std::exit(1);
}

/* Each thread has the keys that are its number modulo `threads`: it puts them all, and removes every other. */
void work(ist::pass pass, std::uint64_t number, std::uint64_t keys) {
    for (std::uint64_t i = 0; i < keys; i++) {
        std::uint64_t key = i * threads + number;
        ist::update put = pass.put_new(key, i);
        check(put && !put.before, "put_new of a new key");
        check(pass.put(key, i + 1).before == i, "put returns what put_new put");
        check(i % 2 == 1 || pass.remove(key).before == i + 1, "remove returns what put put");
        check(pass.find(key) == (i % 2 ? std::optional<std::uint64_t>(i + 1) : std::nullopt), "find");
    }
}

void share(std::uint64_t keys) {
    ist::tree tree(16000000);
    std::vector<std::thread> workers;
    for (std::uint64_t i = 0; i < threads; i++) workers.emplace_back(work, ist::pass(tree), i, keys);
    for (std::thread &it : workers) it.join();
    check(!tree.pairs() && !tree.filled(), "an open tree has no pairs yet");
    check(tree.close() == IST_DONE && tree.close() == IST_MISUSE, "close");
    std::vector<ist::entry> pairs = tree.pairs().value();
    check(pairs.size() == threads * keys / 2 && tree.filled()->keys == pairs.size(), "half of the pairs are left");
    for (std::uint64_t i = 0; i < pairs.size(); i++) {
        std::uint64_t turn = 2 * (i / threads) + 1;
        check(pairs[i].key == turn * threads + i % threads && pairs[i].value == turn + 1, "a pair");
    }
    std::printf("%llu threads left %zu pairs\n", static_cast<unsigned long long>(threads), pairs.size());
}

void go_on() {
    ist::tree tree(100, {{2, 20}, {1, 10}, {2, 21}});
    std::uint32_t words = 100;
    std::optional<ist::pass> pass(std::in_place, tree);
    for (std::uint64_t key = 10; key < 1000;) {
        ist::update put = pass->put(key, key);
        if (put) {
            key++;
            continue;
        }
        check(put.why.words == words && put.why.next + put.why.asked > words, "the numbers of a refusal");
        check(tree.reopen(2 * words) == IST_BUSY, "a pass is out");
        pass.reset();
        check(tree.reopen(words *= 2) == IST_DONE, "reopen");
        pass.emplace(tree);
    }
    check(pass->find(2) == 21 && pass->list(0, last_key).size() == 992, "all pairs are there");
    pass.reset();
    check(tree.reopen(4) == IST_SMALL && tree.reopen(100000) == IST_DONE, "the pairs are kept");
    check(ist::pass(tree).find(999) == 999, "and found");
}

void read_in_order() {
    ist::tree tree(100000);
    ist::pass pass(tree), other(tree);
    for (std::uint64_t key = 0; key < 300; key++) check(bool(pass.put(10 * key, key)), "put");
    check(pass.at_least(11)->key == 20 && pass.at_most(19)->key == 10 && !pass.at_least(2991), "the next keys");
    auto all = pass.list(0, last_key);
    check(all.size() == 300 && all[299].key == 2990 && all[299].value == 299 && pass.list(11, 19).empty(), "a list in one walk");
    std::uint64_t left = pass.room();
    check(left < 100000 && pass.find(20) == 2 && other.room() == left, "a find takes no words");
    check(pass.put(20, 2).before == 2 && other.room() < left, "a put takes some");
    std::uint64_t sum = 0, seen = 0;
    pass.for_each(5, last_key, [&](const ist::entry &it) { return sum += it.value, ++seen < 100; });
    check(seen == 100 && sum == 5050, "a callback that stops");
    check(pass.put_if(10, 1, 7).before == 1 && pass.put_if(10, 1, 8).before == 7, "put_if");
    check(pass.remove_if(10, 8).before == 7 && pass.remove_if(10, 7).before == 7 && !pass.find(10), "remove_if");
    check(other.meet(pass.write_note().value()) && !other.find(10), "a note");
    ist::tree second(1000);
    check(!ist::pass(second).meet(pass.write_note().value()), "a note of another tree");

    ist::shot shot(tree, ist_shot_words(300));
    check(bool(pass.remove(20)) && shot.size() == 299 && shot.find(20) == 2 && !shot.find(10), "a shot stays as it was");
    check(shot.list(0, 99).size() == 9 && pass.list(0, 99).size() == 8, "and lists what it has");
    other = std::move(pass);
    check(other.find(30) == 3, "a pass that was moved");
}

/* Passes and shots that are given back serve again. */
void take_turns() {
    ist::tree tree(20000, {{5, 50}});
    for (int turn = 0; turn < 1000; turn++) {
        ist::pass one(tree), two(tree);
        check(one.find(5) == 50 && two.put(5, 50).before == 50, "a pass that served before");
        if (turn % 100 == 0) check(ist::shot(tree, 0).size() == 1, "a shot by such a pass");
        check(tree.reopen(20000) == IST_BUSY, "a pass that is out");
    }
    check(tree.reopen(20000) == IST_DONE && ist::pass(tree).find(5) == 50, "all are back");
    check(tree.close() == IST_DONE && tree.pairs()->size() == 1, "also the one that was made since");
}

/* A pass and a shot outlive the object of their tree. */
void outlive() {
    std::optional<ist::tree> tree(std::in_place, 1000, std::vector<ist::entry>{{5, 50}});
    ist::pass pass(*tree);
    ist::shot shot(*tree, 0);
    ist::note note = pass.write_note().value();
    tree.reset();
    check(pass.find(5) == 50 && shot.find(5) == 50 && pass.meet(std::move(note)), "a tree lasts as long as its passes");
}

template <class Make> void refused(std::uint32_t status, Make make) {
    try {
        make();
    } catch (const ist::error &error) {
        check(error.status() == status, error.what());
        return;
    }
    check(false, "a constructor that must throw");
}

} // namespace

int main(int count, char **words) {
    check(ist_version() == IST_VERSION_NUMBER, "the library is of the header's version");
    share(count > 1 ? std::strtoull(words[1], nullptr, 10) : 1000);
    go_on();
    read_in_order();
    take_turns();
    outlive();
    refused(IST_SMALL, [] { ist::tree(3); });
    refused(IST_MISUSE, [] { ist::tree(UINT32_MAX); });
    ist::tree tree(1000);
    refused(IST_FULL, [&] { ist::shot(tree, 1000); });
    check(tree.reopen(3) == IST_SMALL, "too few words");
    refused(IST_MISUSE, [&] { ist::pass{tree}; });
    return 0;
}
