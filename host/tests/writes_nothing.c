/* These calls write no pool word: searches, the next key, counts, refused commands, a settle with nothing to do, a delete of a span that has no
 * key, a save, a clearing that finds no mark, and calls refused whole, which write no answer word and no output byte either. The pool (and there the answers or the output) lie in a page that may only be read, and a write
 * would end the test by a signal. Of the header an accepted step, or a settle, writes the fourth word, L, alone, and that only where L moves: the words
 * before it, or all four, lie in such a page. */
#define _DEFAULT_SOURCE
#include "../include/chromatic.h"
#include <stdio.h>
#include <string.h>
#include <sys/mman.h>
#include <unistd.h>

static int failed = 0;

static void check(int holds, const char *what) {
    if (!holds) {
        printf("writes_nothing.c: %s\n", what);
        failed = 1;
    }
}

/* A call that is refused with a place. */
static uint64_t wrong_at(uint32_t code, size_t place) {
    return UINT64_C(4294967296) * code + place;
}

/* A place past 32 bits. The bytes are zeros that may only be read: C and N are 0, every number reads, and the place is the count. */
static void far_places(uint32_t *pool, size_t words) {
    const size_t last = UINT32_MAX, most = last + 7;
    const uint64_t at_last = wrong_at(CHROMATIC_BAD_SAVED, last);
    const uint8_t *zeros = mmap(NULL, most, PROT_READ, MAP_PRIVATE | MAP_ANONYMOUS | MAP_NORESERVE, -1, 0);

    if (zeros == MAP_FAILED) {
        puts("not tried: a place past 32 bits, since there is no room for 4 GiB of addresses");
        return;
    }
    check(chromatic_load(pool, words, zeros, last - 1) == at_last - 1, "a place below 4,294,967,295");
    check(chromatic_load(pool, words, zeros, last) == at_last, "place 4,294,967,295");
    check(chromatic_load(pool, words, zeros, last + 1) == at_last, "the first place past 32 bits");
    check(chromatic_load(pool, words, zeros, most) == at_last, "a place past 32 bits");
}

/* A save writes its bytes, and those past the count and every pool word stay; a refused save or load writes nothing. `out` is two pages,
 * of which the second may only be read. */
static void saving(uint32_t *pool, size_t words, uint8_t *out, size_t page) {
    const uint8_t padded[] = {7, 1, 2, 0x85, 0, 9}, other_slots[] = {3, 0};
    uint8_t *end = out + page;
    size_t count;

    check(mprotect(end, page, PROT_READ) == 0, "the second page may only be read");
    check(mprotect(pool, page, PROT_READ) == 0, "the pool may only be read");
    count = (size_t)chromatic_save(pool, words, out, page);
    check(count > 2 && count <= CHROMATIC_SAVED_BYTES(7), "save");
    check(chromatic_save(pool, words, end - count, count + page) == count, "a save up to the page that may only be read");
    check(mprotect(out, page, PROT_READ) == 0, "the output may only be read");
    check(CHROMATIC_CODE(chromatic_save(pool, words - 1, out, page)) == CHROMATIC_WRONG_LENGTH, "save refused with 1");
    check(CHROMATIC_CODE(chromatic_save(pool, words, out, count - 1)) == CHROMATIC_NO_FIT, "save refused with 14");
    check(CHROMATIC_CODE(chromatic_load(pool, words - 1, out, count)) == CHROMATIC_WRONG_LENGTH, "load refused with 1");
    check(chromatic_load(pool, words, padded, sizeof padded) == wrong_at(CHROMATIC_BAD_SAVED, 4), "load refused with 13 and a place");
    check(chromatic_load(pool, words, out, count - 1) == wrong_at(CHROMATIC_BAD_SAVED, count - 1), "load refused with 13, cut short");
    check(chromatic_load(pool, words, end - count, count + page) == wrong_at(CHROMATIC_BAD_SAVED, count + page), "load refused with 13, too long");
    far_places(pool, words);
    check(CHROMATIC_CODE(chromatic_load(pool, words, other_slots, sizeof other_slots)) == CHROMATIC_NO_FIT, "load refused with 14");
    check(mprotect(pool, page, PROT_READ | PROT_WRITE) == 0, "the pool may be written");
    check(chromatic_load(pool, words, out, count) == 7, "load, from bytes that may only be read");
}

/* Texts that may not go, and notices without a mark. The pool is full: attempt 1 for resident 0 of notice 1, and three more. */
static void sending(uint32_t *pool, size_t words, size_t page) {
    check(chromatic_prepare(pool, words) == CHROMATIC_GOOD, "prepare");
    for (uint32_t resident = 0; resident < 4; resident++) check(chromatic_may_send(pool, words, 1, resident, 1) == 1, "may send");
    check(mprotect(pool, page, PROT_READ) == 0, "the pool may only be read");
    check(CHROMATIC_CODE(chromatic_may_send(pool, words, 1, CHROMATIC_HIGHEST_RESIDENT + 1, 1)) == CHROMATIC_OUT_OF_RANGE, "may send refused with 15");
    check(CHROMATIC_CODE(chromatic_may_send(pool, words - 1, 1, 0, 1)) == CHROMATIC_WRONG_LENGTH, "may send refused with 1");
    check(CHROMATIC_CODE(chromatic_may_send(pool, words, 1, 0, 1)) == CHROMATIC_ALL_USED, "may send refused with 16");
    check(CHROMATIC_CODE(chromatic_may_send(pool, words, 1, 0, 2)) == CHROMATIC_NO_ROOM, "may send refused with 7, a second text");
    check(CHROMATIC_CODE(chromatic_may_send(pool, words, 2, 0, 1)) == CHROMATIC_NO_ROOM, "may send refused with 7, another notice");
    check(CHROMATIC_CODE(chromatic_clear_notice(pool, words, CHROMATIC_LOWEST_NOTICE - 1)) == CHROMATIC_OUT_OF_RANGE, "clear refused with 15");
    check(CHROMATIC_CODE(chromatic_clear_notice(pool, words - 1, 1)) == CHROMATIC_WRONG_LENGTH, "clear refused with 1");
    check(chromatic_clear_notice(pool, words, 2) == 0, "a notice without a mark is cleared");
    check(mprotect(pool, page, PROT_READ | PROT_WRITE) == 0, "the pool may be written");
    for (size_t word = 2; word <= 3; word++) { /* N, then L */
        pool[word] += 1;
        check(mprotect(pool, page, PROT_READ) == 0, "the pool may only be read");
        check(CHROMATIC_CODE(chromatic_may_send(pool, words, 1, 0, 1)) == CHROMATIC_RULES_BROKEN, "may send refused with 2");
        check(CHROMATIC_CODE(chromatic_clear_notice(pool, words, 1)) == CHROMATIC_RULES_BROKEN, "clear refused with 2");
        check(mprotect(pool, page, PROT_READ | PROT_WRITE) == 0, "the pool may be written");
        pool[word] -= 1;
    }
}

/* A saved set, a command on it, and L afterwards. */
struct stepped {
    uint8_t count, bytes[26], command_count, command[3];
    uint32_t level;
    const char *what;
};

/* The sets are loaded across `both`, two pages, so that the first `kept` words of the header are the last of the first page, which then may
 * only be read. */
static void stepping(const struct stepped *cases, size_t count, size_t kept, uint8_t *both, size_t page) {
    /* A word has its alignment there: the page has it, and words before it have. */
    uint32_t *pool = (uint32_t *)(void *)(both + page) - kept;

    for (const struct stepped *a = cases; a < cases + count; a++) {
        const size_t words = CHROMATIC_POOL_WORDS(a->bytes[0]);
        uint32_t answer[CHROMATIC_ANSWER_WORDS] = {0};
        check(mprotect(both, page, PROT_READ | PROT_WRITE) == 0, "the first page may be written");
        check(chromatic_load(pool, words, a->bytes, a->count) == a->bytes[1], a->what);
        check(mprotect(both, page, PROT_READ) == 0, "the first page may only be read");
        check(chromatic_batch(pool, words, a->command, a->command_count, answer, CHROMATIC_ANSWER_WORDS) == 0, a->what);
        check(answer[0] == CHROMATIC_GOOD && answer[1] > 0, a->what);
        check(pool[3] == a->level && chromatic_report(pool, words, CHROMATIC_LEVEL) == a->level, a->what);
    }
}

static void steps(size_t page) {
    static const struct stepped keep[] = {
        {16, {7, 7, 3, 30, 1, 20, 1, 10, 2, 10, 2, 20, 2, 30, 2, 40}, 3, {CHROMATIC_STEP, 1, 2}, 1, "kind 2 at the root"},
        {16, {7, 7, 3, 10, 2, 10, 1, 20, 2, 20, 1, 30, 2, 30, 2, 40}, 3, {CHROMATIC_STEP, 1, 3}, 1, "kind 3 at the root"},
        {16, {7, 7, 3, 30, 1, 10, 2, 10, 1, 20, 2, 20, 2, 30, 2, 40}, 3, {CHROMATIC_STEP, 1, 4}, 1, "kind 4 at the root"},
        {16, {7, 7, 3, 10, 2, 10, 1, 30, 1, 20, 2, 20, 2, 30, 2, 40}, 3, {CHROMATIC_STEP, 1, 5}, 1, "kind 5 at the root"},
        {20, {9, 9, 3, 10, 4, 10, 1, 30, 3, 20, 2, 20, 2, 30, 3, 40, 2, 40, 2, 50}, 3, {CHROMATIC_STEP, 1, 7}, 2, "kind 7 at the root"},
        {20, {9, 9, 3, 40, 1, 20, 3, 10, 2, 10, 2, 20, 3, 30, 2, 30, 2, 40, 4, 50}, 3, {CHROMATIC_STEP, 1, 8}, 2, "kind 8 at the root"},
        {24, {11, 11, 3, 50, 3, 30, 1, 20, 1, 10, 2, 10, 2, 20, 2, 30, 1, 40, 2, 40, 2, 50, 4, 60}, 3, {CHROMATIC_STEP, 2, 1}, 2, "kind 1 below the root"},
        {12, {5, 5, 3, 20, 3, 10, 4, 10, 4, 20, 6, 30}, 3, {CHROMATIC_STEP, 2, 6}, 3, "kind 6 below the root"},
        {16, {7, 7, 3, 10, 2, 10, 1, 20, 2, 20, 1, 30, 2, 30, 2, 40}, 2, {CHROMATIC_SETTLE, 9}, 1, "a settle by kind 3"},
    }, move[] = {
        {20, {9, 9, 3, 20, 1, 10, 2, 10, 2, 20, 1, 30, 2, 30, 1, 40, 2, 40, 2, 50}, 3, {CHROMATIC_STEP, 1, 1}, 2, "kind 1 at the root"},
        {8, {3, 3, 3, 10, 18, 10, 18, 20}, 3, {CHROMATIC_STEP, 1, 6}, 8, "kind 6 at the root"},
        {8, {3, 3, 3, 10, 18, 10, 18, 20}, 2, {CHROMATIC_SETTLE, 9}, 1, "a settle by kind 6"},
    };
    /* 01's P8: L is 255. */
    const uint8_t tall[] = {9, 9, 3, 3, 1, 2, 1, 1, 0xFE, 3, 1, 0xFE, 3, 2, 0xFE, 3, 3, 1, 4, 0xFE, 3, 4, 0xFE, 3, 5}, raise[] = {CHROMATIC_STEP, 1, 1};
    const size_t words = CHROMATIC_POOL_WORDS(9);
    uint8_t *both = mmap(NULL, 2 * page, PROT_READ | PROT_WRITE, MAP_PRIVATE | MAP_ANONYMOUS, -1, 0);
    uint32_t answer[CHROMATIC_ANSWER_WORDS] = {0}, *pool = (uint32_t *)(void *)both;

    if (both == MAP_FAILED) {
        check(0, "no pages");
        return;
    }
    stepping(keep, sizeof keep / sizeof keep[0], 4, both, page);
    stepping(move, sizeof move / sizeof move[0], 3, both, page);
    check(mprotect(both, page, PROT_READ | PROT_WRITE) == 0, "the first page may be written");
    check(chromatic_load(pool, words, tall, sizeof tall) == 9 && pool[3] == 255, "load of a tree with L = 255");
    check(mprotect(both, page, PROT_READ) == 0, "the first page may only be read");
    check(chromatic_batch(pool, words, raise, sizeof raise, answer, CHROMATIC_ANSWER_WORDS) == 0 && answer[0] == CHROMATIC_TOO_TALL, "refused with 11");
}

/* The same of the largest pool: what is refused whole, of its own length and of those next to it, a slot more among them, and what a call finds
 * nothing to change in. All of its pages may only be read, and those of the answers and the output too. */
static void largest(uint32_t *answers, uint8_t *out, size_t page) {
    const size_t words = CHROMATIC_POOL_WORDS(CHROMATIC_MOST_SLOTS), bytes = (CHROMATIC_POOL_WORDS(CHROMATIC_MOST_SLOTS + 1) * sizeof(uint32_t) + page - 1) / page * page;
    const size_t lengths[] = {words - 3, words - 2, words - 1, words + 1, words + 2, words + 3, CHROMATIC_POOL_WORDS(CHROMATIC_MOST_SLOTS + 1)};
    const uint8_t asking[] = {CHROMATIC_SEARCH, 10, CHROMATIC_INSERT, 10, CHROMATIC_STEP, 0x80, 0x80, 1, 1, CHROMATIC_SETTLE, 9};
    const uint8_t filling[] = {CHROMATIC_INSERT, 10, CHROMATIC_INSERT, 20};
    const uint8_t too_many[] = {0x80, 0x80, 1, 0}, other_slots[] = {0xFE, 0x7F, 0};
    const size_t room = 4 * CHROMATIC_ANSWER_WORDS;
    uint32_t *pool = mmap(NULL, bytes, PROT_READ | PROT_WRITE, MAP_PRIVATE | MAP_ANONYMOUS, -1, 0);

    if (pool == MAP_FAILED) {
        check(0, "no pages");
        return;
    }
    check(chromatic_prepare(pool, words) == CHROMATIC_GOOD, "prepare the most slots");
    check(chromatic_batch(pool, words, filling, sizeof filling, answers, room) == 0, "two keys in the most slots");
    check(mprotect(pool, bytes, PROT_READ) == 0, "the largest pool may only be read");
    check(chromatic_batch(pool, words, asking, sizeof asking, answers, room) == 0, "commands that change nothing in the largest pool");
    check(answers[4] == CHROMATIC_NO_INNER_NODE, "a step at slot 16,384");
    check(mprotect(answers, page, PROT_READ) == 0 && mprotect(out, page, PROT_READ) == 0, "answers and output may only be read");
    for (size_t i = 0; i < sizeof lengths / sizeof lengths[0]; i++) {
        const size_t n = lengths[i];
        check(chromatic_prepare(pool, n) == CHROMATIC_WRONG_LENGTH, "the largest pool, prepare refused with 1");
        check(CHROMATIC_CODE(chromatic_batch(pool, n, filling, sizeof filling, answers, room)) == CHROMATIC_WRONG_LENGTH, "the largest pool, refused with 1");
        check(CHROMATIC_CODE(chromatic_save(pool, n, out, page)) == CHROMATIC_WRONG_LENGTH, "the largest pool, save refused with 1");
        check(CHROMATIC_CODE(chromatic_load(pool, n, other_slots, sizeof other_slots)) == CHROMATIC_WRONG_LENGTH, "the largest pool, load refused with 1");
        check(CHROMATIC_CODE(chromatic_may_send(pool, n, 1, 0, 1)) == CHROMATIC_WRONG_LENGTH, "the largest pool, may send refused with 1");
        check(CHROMATIC_CODE(chromatic_clear_notice(pool, n, 1)) == CHROMATIC_WRONG_LENGTH, "the largest pool, clear refused with 1");
    }
    check(chromatic_batch(pool, words, asking, sizeof asking - 1, answers, room) == wrong_at(CHROMATIC_BAD_COMMAND, sizeof asking - 1), "the largest pool, refused with 3");
    check(CHROMATIC_CODE(chromatic_batch(pool, words, filling, sizeof filling, answers, 3)) == CHROMATIC_FEW_ANSWERS, "the largest pool, refused with 4");
    check(CHROMATIC_CODE(chromatic_save(pool, words, out, 2)) == CHROMATIC_NO_FIT, "the largest pool, save refused with 14");
    check(chromatic_load(pool, words, too_many, sizeof too_many) == wrong_at(CHROMATIC_BAD_SAVED, sizeof too_many), "the largest pool, load refused with 13");
    check(CHROMATIC_CODE(chromatic_load(pool, words, other_slots, sizeof other_slots)) == CHROMATIC_NO_FIT, "the largest pool, load refused with 14");
    check(CHROMATIC_CODE(chromatic_may_send(pool, words, 0, 0, 1)) == CHROMATIC_OUT_OF_RANGE, "the largest pool, may send refused with 15");
    check(chromatic_clear_notice(pool, words, 1) == 0, "the largest pool, a notice without a mark is cleared");
    check(mprotect(pool, bytes, PROT_READ | PROT_WRITE) == 0, "the largest pool may be written");
    pool[words - 1] += 1; /* the last slot's weight */
    check(mprotect(pool, bytes, PROT_READ) == 0, "the largest pool may only be read");
    check(CHROMATIC_CODE(chromatic_batch(pool, words, filling, sizeof filling, answers, room)) == CHROMATIC_RULES_BROKEN, "the largest pool, refused with 2");
    check(CHROMATIC_CODE(chromatic_save(pool, words, out, page)) == CHROMATIC_RULES_BROKEN, "the largest pool, save refused with 2");
    check(CHROMATIC_CODE(chromatic_may_send(pool, words, 1, 0, 1)) == CHROMATIC_RULES_BROKEN, "the largest pool, may send refused with 2");
    check(CHROMATIC_CODE(chromatic_clear_notice(pool, words, 1)) == CHROMATIC_RULES_BROKEN, "the largest pool, clear refused with 2");
    check(mprotect(answers, page, PROT_READ | PROT_WRITE) == 0 && mprotect(out, page, PROT_READ | PROT_WRITE) == 0, "answers and output may be written");
}

int main(void) {
    const size_t page = (size_t)sysconf(_SC_PAGESIZE), words = CHROMATIC_POOL_WORDS(7);
    uint32_t *pool = mmap(NULL, page, PROT_READ | PROT_WRITE, MAP_PRIVATE | MAP_ANONYMOUS, -1, 0);
    uint32_t *answers = mmap(NULL, page, PROT_READ | PROT_WRITE, MAP_PRIVATE | MAP_ANONYMOUS, -1, 0);
    uint8_t *out = mmap(NULL, 2 * page, PROT_READ | PROT_WRITE, MAP_PRIVATE | MAP_ANONYMOUS, -1, 0);
    const uint8_t filling[] = {CHROMATIC_INSERT, 10, CHROMATIC_INSERT, 20, CHROMATIC_INSERT, 30, CHROMATIC_INSERT, 40, CHROMATIC_SETTLE, 99};
    const uint8_t asking[] = {CHROMATIC_SEARCH, 10, CHROMATIC_SEARCH, 15, CHROMATIC_INSERT, 10, CHROMATIC_INSERT, 15, CHROMATIC_DELETE, 15,
                              CHROMATIC_STEP, 0, 1, CHROMATIC_STEP, 1, 9, CHROMATIC_STEP, 1, 1, CHROMATIC_SETTLE, 9,
                              CHROMATIC_AT_OR_ABOVE, 15, CHROMATIC_AT_OR_ABOVE, 41, CHROMATIC_COUNT, 10, 30, CHROMATIC_COUNT, 30, 10,
                              CHROMATIC_DELETE_SPAN, 11, 19, CHROMATIC_DELETE_SPAN, 30, 10};
    const uint32_t codes[] = {CHROMATIC_GOOD, CHROMATIC_KEY_ABSENT, CHROMATIC_KEY_PRESENT, CHROMATIC_NO_ROOM, CHROMATIC_KEY_ABSENT,
                              CHROMATIC_NO_INNER_NODE, CHROMATIC_NO_KIND, CHROMATIC_CONDITION_FALSE, CHROMATIC_GOOD,
                              CHROMATIC_GOOD, CHROMATIC_KEY_ABSENT, CHROMATIC_GOOD, CHROMATIC_GOOD, CHROMATIC_GOOD, CHROMATIC_GOOD};
    const size_t asked = sizeof codes / sizeof codes[0], room = asked * CHROMATIC_ANSWER_WORDS;

    if (pool == MAP_FAILED || answers == MAP_FAILED || out == MAP_FAILED) {
        printf("writes_nothing.c: no pages\n");
        return 1;
    }
    steps(page);
    largest(answers, out, page);
    sending(pool, words, page);
    check(chromatic_prepare(pool, words) == CHROMATIC_GOOD, "prepare");
    check(chromatic_batch(pool, words, filling, sizeof filling, answers, room) == 0, "the pool is filled");
    check(mprotect(pool, page, PROT_READ) == 0, "the pool may only be read");
    check(chromatic_batch(pool, words, asking, sizeof asking, answers, room) == 0, "commands that change nothing");
    for (size_t i = 0; i < asked; i++) check(answers[CHROMATIC_ANSWER_WORDS * i] == codes[i], "its code");
    check(mprotect(answers, page, PROT_READ) == 0, "the answers may only be read");
    check(CHROMATIC_CODE(chromatic_batch(pool, words - 1, asking, sizeof asking, answers, room)) == CHROMATIC_WRONG_LENGTH, "refused with 1");
    check(chromatic_batch(pool, words, asking, sizeof asking - 1, answers, room) == wrong_at(CHROMATIC_BAD_COMMAND, sizeof asking - 1), "refused with 3");
    check(CHROMATIC_CODE(chromatic_batch(pool, words, asking, sizeof asking, answers, room - 1)) == CHROMATIC_FEW_ANSWERS, "refused with 4");
    saving(pool, words, out, page);
    for (size_t word = 2; word <= 3; word++) { /* N, then L */
        pool[word] += 1;
        check(mprotect(pool, page, PROT_READ) == 0, "the pool may only be read");
        check(CHROMATIC_CODE(chromatic_batch(pool, words, asking, sizeof asking, answers, room)) == CHROMATIC_RULES_BROKEN, "refused with 2");
        check(CHROMATIC_CODE(chromatic_save(pool, words, out, page)) == CHROMATIC_RULES_BROKEN, "save refused with 2");
        check(mprotect(pool, page, PROT_READ | PROT_WRITE) == 0, "the pool may be written");
        pool[word] -= 1;
    }
    check(mprotect(pool, page, PROT_READ) == 0, "the pool may only be read");
    check(chromatic_prepare(pool, words - 1) == CHROMATIC_WRONG_LENGTH, "prepare refused");
    return failed;
}
