// The calls that `bench/tree.sh` makes on `try_bench`, on ordered maps of other libraries: the skip list of TBB, and the skip list and
// the AVL tree of libcds, as far as HAS_TBB and HAS_CDS are defined. It takes the options of `try_bench`, and `--map tbb`, `skip` or `avl`.
//
// TBB's map can't remove a key while others read. So `tbb` keeps the key and marks its value as removed.
#include <atomic>
#include <chrono>
#include <cstdint>
#include <cstdio>
#include <cstdlib>
#include <fstream>
#include <functional>
#include <map>
#include <optional>
#include <sstream>
#include <string>
#include <thread>
#include <vector>

#ifdef HAS_TBB
#include <tbb/concurrent_map.h>
#endif
#ifdef HAS_CDS
#include <cds/init.h>
#include <cds/urcu/general_buffered.h>
// (the next two need a kind of RCU before them)
#include <cds/container/bronson_avltree_map_rcu.h>
#include <cds/container/skip_list_map_rcu.h>
#endif

using std::uint64_t;

static uint64_t mixed(uint64_t number) {
    number = (number ^ (number >> 30)) * 0xbf58476d1ce4e5b9u;
    number = (number ^ (number >> 27)) * 0x94d049bb133111ebu;
    return number ^ (number >> 31);
}

struct Draws {
    uint64_t at;
    uint64_t next() { return mixed(at += 0x9e3779b97f4a7c15u); }
};

struct Plan {
    std::string spread = "uniform", map;
    uint64_t seed = 1, threads = 1, calls = 1000000, puts = 0, removes = 0, finds = 1, keys = 1000, span = 0;

    uint64_t key(uint64_t number) const {
        if (spread == "uniform") return mixed(number);
        if (spread == "rising") return number;
        return (mixed(number / 1024) & ~uint64_t{1023}) | number % 1024;
    }
};

// User and system time of all threads, in ticks of ten milliseconds.
static uint64_t ticks() {
    std::ifstream file("/proc/self/stat");
    std::string line;
    std::getline(file, line);
    std::istringstream behind(line.substr(line.rfind(')') + 2));
    std::string field;
    for (int it = 0; it < 11; it++) behind >> field;
    uint64_t own, system;
    behind >> own >> system;
    return own + system;
}

// Makes all calls. `Map` has put, remove and find, each of which returns whether the key was there; `enter` and `leave` surround the
// calls of a thread.
template <class Map>
static void measure(const Plan& plan) {
    Map map;
    map.enter();
    for (uint64_t it = 0; it < plan.keys; it++) map.put(plan.key(it), it);
    std::atomic<uint64_t> found{0};
    uint64_t all = plan.puts + plan.removes + plan.finds, before = ticks();
    auto began = std::chrono::steady_clock::now();
    std::vector<std::thread> threads;
    for (uint64_t thread = 0; thread < plan.threads; thread++)
        threads.emplace_back([&, thread] {
            map.enter();
            Draws draws{plan.seed + Draws{thread}.next()};
            uint64_t mine = 0;
            for (uint64_t it = 0; it < plan.calls; it++) {
                uint64_t drawn = draws.next() % all, number = draws.next() % plan.span, key = plan.key(number);
                if (drawn < plan.puts) mine += map.put(key, number);
                else if (drawn < plan.puts + plan.removes) mine += map.remove(key);
                else mine += map.find(key);
            }
            found += mine;
            map.leave();
        });
    for (auto& it : threads) it.join();
    auto elapsed = std::chrono::duration_cast<std::chrono::nanoseconds>(std::chrono::steady_clock::now() - began).count();
    uint64_t spent = (ticks() - before) * 10000000, calls = plan.calls * plan.threads;
    std::printf("%llu processor ns a call, %llu calls a second: %llu calls, %llu found\n", (unsigned long long)(spent / calls),
                (unsigned long long)((unsigned __int128)calls * 1000000000 / (elapsed ? elapsed : 1)), (unsigned long long)calls,
                (unsigned long long)found.load());
    map.leave();
    std::fflush(stdout);
    // The maps are not taken apart: that isn't measured, and takes long.
    std::_Exit(0);
}

// A value that several threads write, which can be copied into a map.
struct Cell {
    std::atomic<uint64_t> value{0};
    Cell() = default;
    Cell(uint64_t it) : value(it) {}
    Cell(const Cell& other) : value(other.value.load()) {}
};

#ifdef HAS_TBB
struct Tbb {
    static constexpr uint64_t REMOVED = ~uint64_t{0};
    tbb::concurrent_map<uint64_t, Cell> map;
    void enter() {}
    void leave() {}
    bool put(uint64_t key, uint64_t value) {
        auto [at, is_new] = map.emplace(key, Cell(value));
        return !is_new && at->second.value.exchange(value) != REMOVED;
    }
    bool remove(uint64_t key) {
        auto at = map.find(key);
        return at != map.end() && at->second.value.exchange(REMOVED) != REMOVED;
    }
    bool find(uint64_t key) {
        auto at = map.find(key);
        return at != map.end() && at->second.value.load() != REMOVED;
    }
};
#endif

#ifdef HAS_CDS
using Rcu = cds::urcu::gc<cds::urcu::general_buffered<>>;

struct Threads {
    void enter() { cds::threading::Manager::attachThread(); }
    void leave() { cds::threading::Manager::detachThread(); }
};

struct Skip : Threads {
    struct Traits : cds::container::skip_list::traits {
        typedef std::less<uint64_t> less;
    };
    cds::container::SkipListMap<Rcu, uint64_t, Cell, Traits> map;
    bool put(uint64_t key, uint64_t value) {
        auto done = map.update(key, [value](bool, auto& it) { it.second.value.store(value); });
        return done.first && !done.second;
    }
    bool remove(uint64_t key) { return map.erase(key); }
    bool find(uint64_t key) {
        return map.find(key, [](auto&) {});
    }
};

struct Avl : Threads {
    struct Traits : cds::container::bronson_avltree::traits {
        typedef std::less<uint64_t> less;
    };
    cds::container::BronsonAVLTreeMap<Rcu, uint64_t, Cell, Traits> map;
    bool put(uint64_t key, uint64_t value) {
        auto done = map.update(key, [value](bool, uint64_t, auto& it) { it.value.store(value); });
        return done.first && !done.second;
    }
    bool remove(uint64_t key) { return map.erase(key); }
    bool find(uint64_t key) {
        return map.find(key, [](uint64_t, auto&) {});
    }
};
#endif

int main(int count, char** words) {
    Plan plan;
    std::map<std::string, uint64_t*> numbers = {{"--seed", &plan.seed},   {"--threads", &plan.threads}, {"--calls", &plan.calls},
                                                {"--puts", &plan.puts},   {"--removes", &plan.removes}, {"--finds", &plan.finds},
                                                {"--keys", &plan.keys},   {"--span", &plan.span}};
    for (int it = 1; it + 1 < count; it += 2) {
        std::string name = words[it];
        if (name == "--spread") plan.spread = words[it + 1];
        else if (name == "--map") plan.map = words[it + 1];
        else if (numbers.count(name)) *numbers[name] = std::strtoull(words[it + 1], nullptr, 10);
        else return 2;
    }
    if (!plan.span) plan.span = plan.keys;
#ifdef HAS_TBB
    if (plan.map == "tbb") measure<Tbb>(plan);
#endif
#ifdef HAS_CDS
    cds::Initialize();
    Rcu rcu;
    if (plan.map == "skip") measure<Skip>(plan);
    if (plan.map == "avl") measure<Avl>(plan);
#endif
    return 2;
}
