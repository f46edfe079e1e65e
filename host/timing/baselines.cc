// What a user would pick instead: std::set, boost::intrusive::set, BSD's red-black tree. The last two are there only
// where their headers are installed, and have nodes of a pool that is made beforehand.
// Each has: NAME_there, NAME_new(most keys), NAME_run(set, operations, keys, n), which returns how many succeeded.
#include <cstddef>
#include <cstdint>
#include <set>
#include <vector>
#if __has_include(<boost/intrusive/set.hpp>)
#include <boost/intrusive/set.hpp>
#define HAVE_BOOST 1
#endif
#if __has_include(<bsd/sys/tree.h>)
#include <bsd/sys/tree.h>
#define HAVE_BSD 1
// tree.h leaves this to the BSDs' cdefs.h; after the other headers, since glibc has members of that name
#ifndef __unused
#define __unused __attribute__((unused))
#endif
#endif

enum { SEARCH = 1, INSERT = 2 }; // 3 is delete

template <class Set> static uint64_t run(Set &set, const uint32_t *op, const uint32_t *key, size_t n) {
    uint64_t good = 0;
    for (size_t i = 0; i < n; i++) good += op[i] == SEARCH ? set.search(key[i]) : op[i] == INSERT ? set.insert(key[i]) : set.remove(key[i]);
    return good;
}

#define EXPORT(NAME, SET)                                                                                  \
    extern "C" int NAME##_there() { return 1; }                                                            \
    extern "C" void *NAME##_new(size_t most) { return new SET(most); }                                     \
    extern "C" uint64_t NAME##_run(void *set, const uint32_t *op, const uint32_t *key, size_t n) {         \
        return run(*static_cast<SET *>(set), op, key, n);                                                  \
    }
#define MISSING(NAME)                                                                                      \
    extern "C" int NAME##_there() { return 0; }                                                            \
    extern "C" void *NAME##_new(size_t) { return nullptr; }                                                \
    extern "C" uint64_t NAME##_run(void *, const uint32_t *, const uint32_t *, size_t) { return 0; }

struct StdSet {
    std::set<uint32_t> keys;
    explicit StdSet(size_t) {}
    bool search(uint32_t key) { return keys.find(key) != keys.end(); }
    bool insert(uint32_t key) { return keys.insert(key).second; }
    bool remove(uint32_t key) { return keys.erase(key) != 0; }
};
EXPORT(std_set, StdSet)

#ifdef HAVE_BOOST
namespace bi = boost::intrusive;
struct Hooked : bi::set_base_hook<bi::link_mode<bi::normal_link>, bi::optimize_size<true>> { uint32_t key; };
struct KeyOf {
    typedef uint32_t type;
    const uint32_t &operator()(const Hooked &n) const { return n.key; }
};
struct BoostSet {
    std::vector<Hooked> pool;
    std::vector<Hooked *> spare;
    bi::set<Hooked, bi::key_of_value<KeyOf>, bi::constant_time_size<false>> keys;
    explicit BoostSet(size_t most) : pool(most) {
        for (auto &n : pool) spare.push_back(&n);
    }
    bool search(uint32_t key) { return keys.find(key) != keys.end(); }
    bool insert(uint32_t key) {
        decltype(keys)::insert_commit_data place;
        if (!keys.insert_check(key, place).second || spare.empty()) return false;
        Hooked *n = spare.back();
        spare.pop_back();
        n->key = key;
        keys.insert_commit(*n, place);
        return true;
    }
    bool remove(uint32_t key) {
        auto at = keys.find(key);
        if (at == keys.end()) return false;
        Hooked *n = &*at;
        keys.erase(at);
        spare.push_back(n);
        return true;
    }
};
EXPORT(boost_set, BoostSet)
#else
MISSING(boost_set)
#endif

#ifdef HAVE_BSD
struct Linked {
    RB_ENTRY(Linked) link;
    uint32_t key;
};
static int compare(Linked *a, Linked *b) { return a->key < b->key ? -1 : a->key > b->key; }
RB_HEAD(Tree, Linked);
RB_PROTOTYPE_STATIC(Tree, Linked, link, compare)
RB_GENERATE_STATIC(Tree, Linked, link, compare)
struct BsdSet {
    std::vector<Linked> pool;
    std::vector<Linked *> spare;
    Tree keys = RB_INITIALIZER(&keys);
    explicit BsdSet(size_t most) : pool(most) {
        for (auto &n : pool) spare.push_back(&n);
    }
    Linked *find(uint32_t key) {
        Linked like;
        like.key = key;
        return RB_FIND(Tree, &keys, &like);
    }
    bool search(uint32_t key) { return find(key) != nullptr; }
    bool insert(uint32_t key) {
        if (spare.empty()) return false;
        spare.back()->key = key;
        if (RB_INSERT(Tree, &keys, spare.back())) return false;
        spare.pop_back();
        return true;
    }
    bool remove(uint32_t key) {
        Linked *n = find(key);
        if (!n) return false;
        RB_REMOVE(Tree, &keys, n);
        spare.push_back(n);
        return true;
    }
};
EXPORT(bsd_tree, BsdSet)
#else
MISSING(bsd_tree)
#endif
