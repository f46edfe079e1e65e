/* The header compiles as C and C++, and its declarations fit the archive: P1, P6, a set saved and loaded, the excess weight, a pool of before,
 * spans of keys, the send limit, the largest pool, the order of refusals, the places where a batch and saved bytes go wrong, NULL with length 0. */
#include "../include/chromatic.h"
#include <stdio.h>
#include <string.h>

#ifdef __cplusplus
#define NOTHING nullptr
#else
#define NOTHING NULL
#endif

static int failed = 0;

static void check(int holds, const char *what) {
    if (!holds) {
        printf("header.c: %s\n", what);
        failed = 1;
    }
}

/* A call that is refused with a place. */
static uint64_t wrong_at(uint32_t code, uint32_t place) {
    return UINT64_C(4294967296) * code + place;
}

/* A call that is refused without one. */
static uint64_t refused_with(uint32_t code) {
    return wrong_at(code, 0);
}

/* The named numbers are those of docs/RULES.md. */
static void numbers(void) {
    const int codes[] = {CHROMATIC_GOOD, CHROMATIC_WRONG_LENGTH, CHROMATIC_RULES_BROKEN, CHROMATIC_BAD_COMMAND, CHROMATIC_FEW_ANSWERS,
                         CHROMATIC_KEY_PRESENT, CHROMATIC_KEY_ABSENT, CHROMATIC_NO_ROOM, CHROMATIC_NO_INNER_NODE, CHROMATIC_NO_KIND,
                         CHROMATIC_CONDITION_FALSE, CHROMATIC_TOO_TALL, CHROMATIC_BUDGET_SPENT, CHROMATIC_BAD_SAVED, CHROMATIC_NO_FIT,
                         CHROMATIC_OUT_OF_RANGE, CHROMATIC_ALL_USED};
    const int operations[] = {CHROMATIC_SEARCH, CHROMATIC_INSERT, CHROMATIC_DELETE, CHROMATIC_STEP, CHROMATIC_SETTLE,
                              CHROMATIC_AT_OR_ABOVE, CHROMATIC_COUNT, CHROMATIC_DELETE_SPAN};
    const int figures[] = {CHROMATIC_NODES, CHROMATIC_LEVEL, CHROMATIC_EXCESS_WEIGHT, CHROMATIC_CONFLICTS, CHROMATIC_OVER_DISTANCE,
                           CHROMATIC_RED_DISTANCE, CHROMATIC_BOUND};
    int i;
    for (i = 0; i <= 16; i++) check(codes[i] == i, "codes are 0 to 16");
    for (i = 0; i < 8; i++) check(operations[i] == i + 1, "operations are 1 to 8");
    for (i = 0; i < 7; i++) check(figures[i] == i + 1, "figures are 1 to 7");
}

/* The largest pool and the longest batch are just that. */
static void limits(void) {
    static uint32_t pool[CHROMATIC_POOL_WORDS(CHROMATIC_MOST_SLOTS + 1)];
    static uint32_t answers[(CHROMATIC_MOST_COMMANDS + 1) * CHROMATIC_ANSWER_WORDS];
    static uint8_t batch[(CHROMATIC_MOST_COMMANDS + 1) * 2], longest[CHROMATIC_MOST_COMMANDS * CHROMATIC_COMMAND_BYTES + 1];
    uint8_t longest_command[CHROMATIC_COMMAND_BYTES] = {CHROMATIC_STEP, 0xFF, 0xFF, 0xFF, 0xFF, 0x0F, 0xFF, 0xFF, 0xFF, 0xFF, 0x0F};
    const size_t words = CHROMATIC_POOL_WORDS(CHROMATIC_MOST_SLOTS), room = sizeof answers / sizeof answers[0];
    int operation;
    size_t i;
    for (i = 0; i < sizeof batch; i += 2) batch[i] = CHROMATIC_SEARCH;
    check(chromatic_prepare(pool, CHROMATIC_POOL_WORDS(CHROMATIC_MOST_SLOTS + 1)) == CHROMATIC_WRONG_LENGTH, "a slot too many");
    check(chromatic_prepare(pool, words) == CHROMATIC_GOOD, "the most slots");
    check(chromatic_batch(pool, words, batch, sizeof batch - 2, answers, room - 2) == 0, "the most commands, with just their answer words");
    check(chromatic_batch(pool, words, batch, sizeof batch, answers, room) == wrong_at(CHROMATIC_BAD_COMMAND, 512), "a command too many");
    batch[513] = 0x80;
    check(chromatic_batch(pool, words, batch, sizeof batch, answers, room) == wrong_at(CHROMATIC_BAD_COMMAND, 512), "and cut short");
    batch[512] = 0x80;
    batch[513] = 0;
    check(chromatic_batch(pool, words, batch, sizeof batch, answers, room) == wrong_at(CHROMATIC_BAD_COMMAND, 512), "and not in shortest form");
    for (operation = CHROMATIC_STEP; operation <= CHROMATIC_DELETE_SPAN; operation++) {
        if (operation == CHROMATIC_SETTLE || operation == CHROMATIC_AT_OR_ABOVE) continue; /* they have one argument */
        longest_command[0] = CHROMATIC_AS(uint8_t, operation);
        for (i = 0; i < sizeof longest - 1; i += sizeof longest_command) memcpy(longest + i, longest_command, sizeof longest_command);
        check(chromatic_batch(pool, words, longest, sizeof longest - 1, answers, room) == 0, "the longest batch");
        check(chromatic_batch(pool, words, longest, sizeof longest, answers, room) == wrong_at(CHROMATIC_BAD_COMMAND, 2816), "the last place");
    }
}

/* A set of the most slots: saved, loaded, and refused as one of a slot more is. 4,100 words, of 1,024 slots, are a pool too. */
static void largest(void) {
    static uint32_t pool[CHROMATIC_POOL_WORDS(CHROMATIC_MOST_SLOTS + 1)];
    static uint8_t out[CHROMATIC_SAVED_BYTES(CHROMATIC_MOST_SLOTS)];
    const uint8_t empty[] = {0xFF, 0x7F, 0}, too_many[] = {0x80, 0x80, 1, 0}, insert[] = {CHROMATIC_INSERT, 10, CHROMATIC_INSERT, 20};
    const size_t words = CHROMATIC_POOL_WORDS(CHROMATIC_MOST_SLOTS);
    const uint8_t expected[] = {0xFF, 0x7F, 3, 3, 10, 2, 10, 2, 20};
    uint32_t answers[2 * CHROMATIC_ANSWER_WORDS];
    size_t more;

    check(CHROMATIC_MOST_SLOTS == 16383 && words == 65536, "the most slots and their words");
    check(chromatic_prepare(pool, CHROMATIC_POOL_WORDS(1024)) == CHROMATIC_GOOD && chromatic_audit(pool, 4100) == CHROMATIC_GOOD, "1,024 slots");
    check(chromatic_prepare(pool, words) == CHROMATIC_GOOD, "the most slots");
    check(chromatic_save(pool, words, out, sizeof out) == sizeof empty && memcmp(out, empty, sizeof empty) == 0, "an empty set saved");
    check(chromatic_batch(pool, words, insert, sizeof insert, answers, 2 * CHROMATIC_ANSWER_WORDS) == 0, "two inserts");
    check(chromatic_save(pool, words, out, sizeof expected) == sizeof expected && memcmp(out, expected, sizeof expected) == 0, "saved");
    check(chromatic_load(pool, words, too_many, sizeof too_many) == wrong_at(CHROMATIC_BAD_SAVED, 4), "a saved slot too many");
    check(chromatic_load(pool, CHROMATIC_POOL_WORDS(1023), out, sizeof expected) == refused_with(CHROMATIC_NO_FIT), "into a smaller pool");
    check(chromatic_report(pool, words, CHROMATIC_NODES) == 3, "the pool is as it was");
    for (more = words + 1; more <= CHROMATIC_POOL_WORDS(CHROMATIC_MOST_SLOTS + 1); more++) {
        check(chromatic_prepare(pool, more) == CHROMATIC_WRONG_LENGTH, "prepare of too many words");
        check(chromatic_audit(pool, more) == CHROMATIC_WRONG_LENGTH, "audit of too many words");
        check(chromatic_report(pool, more, CHROMATIC_NODES) == 0, "report of too many words");
        check(chromatic_batch(pool, more, insert, sizeof insert, answers, 0) == refused_with(CHROMATIC_WRONG_LENGTH), "batch on too many words");
        check(chromatic_save(pool, more, out, 0) == refused_with(CHROMATIC_WRONG_LENGTH), "save of too many words");
        check(chromatic_load(pool, more, too_many, sizeof too_many) == refused_with(CHROMATIC_WRONG_LENGTH), "load into too many words");
        check(chromatic_may_send(pool, more, 1, 0, 1) == refused_with(CHROMATIC_WRONG_LENGTH), "may send on too many words");
        check(chromatic_clear_notice(pool, more, 1) == refused_with(CHROMATIC_WRONG_LENGTH), "clear on too many words");
    }
    check(chromatic_load(pool, words, out, sizeof expected) == 3, "load");
    check(chromatic_audit(pool, words) == CHROMATIC_GOOD, "audit of what is loaded");
}

/* Each cause, in a batch and in saved bytes. */
static void places(void) {
    static const struct {
        uint8_t count, bytes[10];
        uint32_t place;
        const char *what;
    } batches[] = {
        {6, {2, 0xFF, 0xFF, 0xFF, 0xFF, 0x10}, 5, "a key's fifth byte is above 0F"},
        {5, {0x80, 0x80, 0x80, 0x80, 0x80}, 4, "a fifth byte above 0F before the end of the batch"},
        {4, {0x80, 0x80, 0x80, 0x80}, 4, "cut short before a fifth byte"},
        {3, {2, 10, 2}, 3, "cut short before the key"},
        {4, {2, 10, 2, 0x80}, 4, "cut short in the key"},
        {2, {4, 1}, 2, "cut short before the kind"},
        {6, {2, 10, 1, 0x80, 0, 5}, 4, "a key not in shortest form"},
        {6, {1, 0x80, 0x80, 0x80, 0x80, 0}, 5, "a key of five bytes not in shortest form"},
        {5, {4, 1, 0x83, 0, 1}, 3, "a kind not in shortest form"},
        {2, {0x81, 0}, 1, "an operation not in shortest form"},
        {3, {2, 10, 6}, 3, "cut short before the key to be at or above"},
        {5, {6, 0x80, 0x80, 0x80, 0x80}, 5, "cut short in it"},
        {4, {2, 10, 7, 10}, 4, "cut short before the last key of a span"},
        {5, {8, 10, 0x94, 0, 1}, 3, "the last key of a span not in shortest form"},
        {8, {7, 10, 0xFF, 0xFF, 0xFF, 0xFF, 0x10, 0}, 6, "the last key of a span is too large"},
        {4, {2, 10, 9, 10}, 2, "an unknown operation"},
        {5, {2, 10, 0x82, 1, 0x80}, 2, "an unknown operation of two bytes"},
        {1, {0}, 0, "operation 0"},
    }, saved[] = {
        {0, {0}, 0, "no bytes"},
        {3, {0x87, 0, 0}, 1, "C not in shortest form"},
        {5, {0x80, 0x80, 0x80, 0x80, 0x10}, 4, "C's fifth byte is above 0F"},
        {1, {7}, 1, "cut short before N"},
        {3, {7, 0x81, 0}, 2, "N not in shortest form"},
        {6, {7, 0x80, 0x80, 0x80, 0x80, 0x80}, 5, "N's fifth byte is above 0F"},
        {3, {7, 1, 2}, 3, "a node is cut short"},
        {5, {7, 1, 0x82, 0, 5}, 3, "a node's weight not in shortest form"},
        {9, {7, 1, 2, 0xFF, 0xFF, 0xFF, 0xFF, 0x10, 0}, 7, "a node's fifth byte is above 0F"},
        {6, {0, 1, 4, 0x85, 0, 9}, 4, "C is 0, and the first bad number comes before what it says"},
        {5, {7, 1, 2, 5, 0}, 5, "a byte is left over"},
        {4, {7, 0, 0x80, 0}, 4, "what is left over is not read"},
        {4, {7, 1, 4, 5}, 4, "every number reads, and the root's weight is 2"},
        {2, {0, 0}, 2, "every number reads, and C is 0"},
    };
    uint32_t pool[CHROMATIC_POOL_WORDS(7)], answers[8] = {0};
    const size_t words = sizeof pool / sizeof pool[0];
    size_t i;

    check(chromatic_prepare(pool, words) == CHROMATIC_GOOD, "prepare");
    for (i = 0; i < sizeof batches / sizeof batches[0]; i++) {
        const uint64_t refused = chromatic_batch(pool, words, batches[i].bytes, batches[i].count, answers, 8);
        check(refused == wrong_at(CHROMATIC_BAD_COMMAND, batches[i].place), batches[i].what);
    }
    for (i = 0; i < sizeof saved / sizeof saved[0]; i++) {
        const uint64_t refused = chromatic_load(pool, words, saved[i].bytes, saved[i].count);
        check(refused == wrong_at(CHROMATIC_BAD_SAVED, saved[i].place), saved[i].what);
    }
    check(chromatic_report(pool, words, CHROMATIC_NODES) == 0 && chromatic_audit(pool, words) == CHROMATIC_GOOD, "the pool is empty yet");
}

/* With P1's tree, in 7 slots. */
static void over_a_restart(const uint32_t *pool, size_t words) {
    /* C, N, then each node from the root: twice the weight, plus 1 for an inner node, and the key or router */
    const uint8_t expected[] = {7, 7, 3, 10, 2, 10, 1, 20, 2, 20, 1, 30, 2, 30, 2, 40};
    uint8_t out[CHROMATIC_SAVED_BYTES(7) + 1], again[sizeof out];
    uint32_t other[CHROMATIC_POOL_WORDS(7)], smaller[CHROMATIC_POOL_WORDS(3)] = {0};
    const size_t count = sizeof expected;

    check(CHROMATIC_SAVED_BYTES(0) == 4 && CHROMATIC_SAVED_BYTES(CHROMATIC_MOST_SLOTS) == 114685, "the most bytes of a saved set");
    memset(out, 9, sizeof out);
    memset(again, 9, sizeof again);
    memset(other, 9, sizeof other);
    check(chromatic_save(pool, words, out, sizeof out) == count, "save");
    check(memcmp(out, expected, count) == 0, "the saved bytes");
    check(memcmp(out + count, again, sizeof out - count) == 0, "bytes past the count stay");
    check(chromatic_load(other, words, out, count) == 7, "load");
    check(chromatic_audit(other, words) == CHROMATIC_GOOD, "audit of what is loaded");
    check(chromatic_save(other, words, again, count) == count && memcmp(again, out, sizeof out) == 0, "saved again, with just the room");

    check(chromatic_save(pool, words - 1, out, 0) == refused_with(CHROMATIC_WRONG_LENGTH), "save: a wrong length first");
    check(chromatic_load(other, words - 1, out, 0) == refused_with(CHROMATIC_WRONG_LENGTH), "load: a wrong length first");
    check(chromatic_save(pool, words, out, count - 1) == refused_with(CHROMATIC_NO_FIT), "save: a byte too little");
    check(chromatic_load(smaller, CHROMATIC_POOL_WORDS(3), out, count - 1) == wrong_at(CHROMATIC_BAD_SAVED, 15), "load: bad bytes second");
    check(chromatic_load(smaller, CHROMATIC_POOL_WORDS(3), out, count) == refused_with(CHROMATIC_NO_FIT), "load: another C");
    other[3] = 0; /* L is 1 */
    check(chromatic_save(other, words, out, 0) == refused_with(CHROMATIC_RULES_BROKEN), "save: broken rules second");
    check(CHROMATIC_CODE(chromatic_save(pool, words, NOTHING, 0)) == CHROMATIC_NO_FIT, "save to NULL");
    check(chromatic_load(other, words, NOTHING, 0) == wrong_at(CHROMATIC_BAD_SAVED, 0), "load from NULL");
    check(CHROMATIC_CODE(chromatic_save(NOTHING, 0, NOTHING, 0)) == CHROMATIC_WRONG_LENGTH, "save at NULL");
    check(CHROMATIC_CODE(chromatic_load(NOTHING, 0, NOTHING, 0)) == CHROMATIC_WRONG_LENGTH, "load at NULL");
}

/* Two leaves of weight 9 below the root: eight units each, and settling works off one of both at a step. */
static void excess_weight(void) {
    const uint8_t saved[] = {3, 3, 3, 10, 18, 10, 18, 20}, seven[] = {CHROMATIC_SETTLE, 7}, one[] = {CHROMATIC_SETTLE, 1};
    uint32_t pool[CHROMATIC_POOL_WORDS(3)], answer[CHROMATIC_ANSWER_WORDS] = {0};
    const size_t words = sizeof pool / sizeof pool[0];

    check(chromatic_load(pool, words, saved, sizeof saved) == 3, "load of two heavy leaves");
    check(chromatic_report(pool, words, CHROMATIC_EXCESS_WEIGHT) == 16, "the excess weight");
    check(chromatic_report(pool, words, CHROMATIC_OVER_DISTANCE) == 32, "D");
    check(chromatic_report(pool, words, CHROMATIC_BOUND) == 320, "the bound");
    check(chromatic_batch(pool, words, seven, sizeof seven, answer, 2) == 0 && answer[0] == CHROMATIC_BUDGET_SPENT, "seven steps");
    check(chromatic_report(pool, words, CHROMATIC_EXCESS_WEIGHT) == 2, "the excess weight after seven steps");
    check(chromatic_batch(pool, words, one, sizeof one, answer, 2) == 0 && answer[0] == CHROMATIC_GOOD, "the last step");
    check(chromatic_report(pool, words, CHROMATIC_EXCESS_WEIGHT) == 0, "no excess weight is left");
}

/* A number in seven-bit groups: where it ends. */
static uint8_t *put_number(uint8_t *to, uint32_t number) {
    for (; number >= 0x80; number >>= 7) *to++ = CHROMATIC_AS(uint8_t, (number & 0x7F) | 0x80);
    *to++ = CHROMATIC_AS(uint8_t, number);
    return to;
}

/* Whether a key is in the set. */
static int marked(uint32_t *pool, size_t words, uint32_t key) {
    uint8_t batch[CHROMATIC_COMMAND_BYTES] = {CHROMATIC_SEARCH}, *end = put_number(batch + 1, key);
    uint32_t answer[CHROMATIC_ANSWER_WORDS] = {0};
    check(chromatic_batch(pool, words, batch, CHROMATIC_AS(size_t, end - batch), answer, CHROMATIC_ANSWER_WORDS) == 0, "search");
    return answer[0] == CHROMATIC_GOOD;
}

/* P1's tree in 7 slots, as an archive of interface 5 left and saved it. The words are refused, the bytes load. */
static void a_pool_of_before(void) {
    static const uint32_t left[] = {1, 0, 7, 0, 10, 2, 3, 1, 10, 0, 0, 1, 20, 4, 5, 0, 20, 0, 0, 1, 30, 6, 7, 0, 30, 0, 0, 1, 40, 0, 0, 1};
    static const uint32_t one_key[] = {1, 2, 1, 0, 10, 0, 0, 1, 0, 3, 0, UINT32_MAX, 0, 0, 0, UINT32_MAX};
    const uint8_t saved[] = {7, 7, 3, 10, 2, 10, 1, 20, 2, 20, 1, 30, 2, 30, 2, 40}, search[] = {CHROMATIC_SEARCH, 10};
    uint32_t pool[CHROMATIC_POOL_WORDS(7)], answer[CHROMATIC_ANSWER_WORDS] = {0}, key;
    uint8_t out[CHROMATIC_SAVED_BYTES(7)];
    const size_t words = sizeof pool / sizeof pool[0];

    memcpy(pool, left, sizeof left);
    check(chromatic_audit(pool, words) == CHROMATIC_RULES_BROKEN, "a pool of before");
    check(chromatic_report(pool, words, CHROMATIC_NODES) == 0, "a pool of before: report");
    check(chromatic_batch(pool, words, search, sizeof search, answer, 2) == refused_with(CHROMATIC_RULES_BROKEN), "a pool of before: batch");
    check(chromatic_save(pool, words, out, sizeof out) == refused_with(CHROMATIC_RULES_BROKEN), "a pool of before: save");
    check(chromatic_may_send(pool, words, 1, 0, 1) == refused_with(CHROMATIC_RULES_BROKEN), "a pool of before: may send");
    check(chromatic_clear_notice(pool, words, 1) == refused_with(CHROMATIC_RULES_BROKEN), "a pool of before: clear");
    check(memcmp(pool, left, sizeof left) == 0, "a pool of before is as it was");

    check(chromatic_load(pool, words, saved, sizeof saved) == 7, "load of bytes from before");
    check(chromatic_audit(pool, words) == CHROMATIC_GOOD, "audit of bytes from before");
    for (key = 10; key <= 40; key += 10) check(marked(pool, words, key), "a key from before");
    check(chromatic_save(pool, words, out, sizeof out) == sizeof saved && memcmp(out, saved, sizeof saved) == 0, "the bytes of before");
    check(pool[3] == 1 && chromatic_report(pool, words, CHROMATIC_LEVEL) == 1, "the fourth word is L");
    pool[3] = 0;
    check(memcmp(pool, left, sizeof left) == 0, "the other words are those of before");
    check(chromatic_audit(one_key, sizeof one_key / sizeof one_key[0]) == CHROMATIC_GOOD, "a pool of before with one key");
}

/* One command over a span, or of operation 6 with the key `first`: its answer as one word. */
static uint64_t over_span(uint32_t *pool, size_t words, int operation, uint32_t first, uint32_t last) {
    uint8_t batch[CHROMATIC_COMMAND_BYTES], *end = put_number(batch, CHROMATIC_AS(uint32_t, operation));
    uint32_t answer[CHROMATIC_ANSWER_WORDS] = {0};
    end = put_number(end, first);
    if (operation != CHROMATIC_AT_OR_ABOVE) end = put_number(end, last);
    check(chromatic_batch(pool, words, batch, CHROMATIC_AS(size_t, end - batch), answer, CHROMATIC_ANSWER_WORDS) == 0, "a span");
    return wrong_at(answer[0], answer[1]);
}

/* Who was told about notice 4,411: the marks of residents 7 and 12, between those of the notices beside it; and the last key of all. */
static void spans(void) {
    const uint32_t marks[] = {CHROMATIC_TEXT_KEY(4410, 8191, 7), CHROMATIC_TEXT_KEY(4411, 7, 1), CHROMATIC_TEXT_KEY(4411, 7, 2),
                              CHROMATIC_TEXT_KEY(4411, 12, 1), CHROMATIC_TEXT_KEY(4412, 0, 1), UINT32_MAX};
    const uint32_t first = CHROMATIC_TEXT_KEY(4411, 0, 0), last = CHROMATIC_TEXT_KEY(4411, 8191, 7);
    uint32_t pool[CHROMATIC_POOL_WORDS(11)];
    const size_t words = sizeof pool / sizeof pool[0], count = sizeof marks / sizeof marks[0];
    uint32_t from = first;
    size_t i;

    check(chromatic_prepare(pool, words) == CHROMATIC_GOOD, "prepare for spans");
    check(over_span(pool, words, CHROMATIC_AT_OR_ABOVE, 0, 0) == refused_with(CHROMATIC_KEY_ABSENT), "an empty pool has no next key");
    check(over_span(pool, words, CHROMATIC_COUNT, 0, UINT32_MAX) == 0, "an empty pool has no keys");
    check(over_span(pool, words, CHROMATIC_DELETE_SPAN, 0, UINT32_MAX) == 0, "an empty pool has none to delete");
    for (i = 0; i < count; i++) {
        uint8_t batch[6], *end = put_number(batch, CHROMATIC_INSERT);
        uint32_t answer[CHROMATIC_ANSWER_WORDS] = {9, 0};
        end = put_number(end, marks[i]);
        check(chromatic_batch(pool, words, batch, CHROMATIC_AS(size_t, end - batch), answer, 2) == 0 && answer[0] == CHROMATIC_GOOD, "a mark");
    }
    check(over_span(pool, words, CHROMATIC_COUNT, first, last) == 3, "three texts about the notice");
    for (i = 1; i <= 4; i++) {
        check(over_span(pool, words, CHROMATIC_AT_OR_ABOVE, from, 0) == marks[i], "the next mark");
        from = marks[i] + 1;
    }
    check(over_span(pool, words, CHROMATIC_AT_OR_ABOVE, UINT32_MAX, 0) == UINT32_MAX, "the last key of all");
    check(over_span(pool, words, CHROMATIC_COUNT, last, first) == 0, "the first above the last");
    check(over_span(pool, words, CHROMATIC_DELETE_SPAN, last, first) == 0, "and none goes");
    check(over_span(pool, words, CHROMATIC_DELETE_SPAN, first, last) == 3, "its marks go");
    check(over_span(pool, words, CHROMATIC_COUNT, 0, UINT32_MAX) == 3, "and no other");
    check(over_span(pool, words, CHROMATIC_DELETE_SPAN, UINT32_MAX, UINT32_MAX) == 1, "the last key of all goes");
    check(over_span(pool, words, CHROMATIC_AT_OR_ABOVE, marks[4] + 1, 0) == refused_with(CHROMATIC_KEY_ABSENT), "nothing lies above");
    check(chromatic_audit(pool, words) == CHROMATIC_GOOD, "audit after spans");
}

/* 7 slots hold 4 marks: three texts of a limit of 3, a fourth one's mark, and then there is no room. */
static void send_limit(void) {
    const uint32_t most = CHROMATIC_HIGHEST_NOTICE, last = CHROMATIC_HIGHEST_RESIDENT, first = CHROMATIC_LOWEST_RESIDENT;
    uint32_t pool[CHROMATIC_POOL_WORDS(7)], attempt;
    const size_t words = sizeof pool / sizeof pool[0];

    check(CHROMATIC_TEXT_KEY(most, last, 7) == UINT32_MAX && CHROMATIC_TEXT_KEY(1, 0, 1) == 65537, "the first and the last key of a text");
    memset(pool, 9, sizeof pool);
    check(chromatic_may_send(pool, words - 1, most + 1, 0, 1) == refused_with(CHROMATIC_OUT_OF_RANGE), "a notice too large, first");
    check(chromatic_may_send(pool, words - 1, 0, first, 1) == refused_with(CHROMATIC_OUT_OF_RANGE), "no notice");
    check(chromatic_may_send(pool, words - 1, 1, last + 1, 1) == refused_with(CHROMATIC_OUT_OF_RANGE), "a resident too large");
    check(chromatic_may_send(pool, words - 1, 1, 0, CHROMATIC_LOWEST_LIMIT - 1) == refused_with(CHROMATIC_OUT_OF_RANGE), "no limit");
    check(chromatic_may_send(pool, words - 1, 1, 0, CHROMATIC_HIGHEST_LIMIT + 1) == refused_with(CHROMATIC_OUT_OF_RANGE), "a limit too large");
    check(chromatic_clear_notice(pool, words - 1, CHROMATIC_LOWEST_NOTICE - 1) == refused_with(CHROMATIC_OUT_OF_RANGE), "clear: no notice");
    check(chromatic_clear_notice(pool, words - 1, most + 1) == refused_with(CHROMATIC_OUT_OF_RANGE), "clear: a notice too large");
    check(chromatic_may_send(pool, words - 1, most, last, CHROMATIC_HIGHEST_LIMIT) == refused_with(CHROMATIC_WRONG_LENGTH), "a wrong length second");
    check(chromatic_clear_notice(pool, words - 1, most) == refused_with(CHROMATIC_WRONG_LENGTH), "clear: a wrong length second");
    check(chromatic_may_send(pool, words, most, last, 1) == refused_with(CHROMATIC_RULES_BROKEN), "broken rules third");
    check(chromatic_clear_notice(pool, words, most) == refused_with(CHROMATIC_RULES_BROKEN), "clear: broken rules third");
    check(chromatic_may_send(NOTHING, 0, 1, 0, 1) == refused_with(CHROMATIC_WRONG_LENGTH), "may send at NULL");
    check(chromatic_clear_notice(NOTHING, 0, 1) == refused_with(CHROMATIC_WRONG_LENGTH), "clear at NULL");

    check(chromatic_prepare(pool, words) == CHROMATIC_GOOD, "prepare");
    for (attempt = 1; attempt <= 3; attempt++) {
        check(!marked(pool, words, CHROMATIC_TEXT_KEY(most, last, attempt)), "an attempt is not marked before");
        check(chromatic_may_send(pool, words, most, last, 3) == attempt, "yes is the attempt alone");
        check(marked(pool, words, CHROMATIC_TEXT_KEY(most, last, attempt)), "its mark is in the set");
    }
    check(chromatic_may_send(pool, words, most, last, 3) == refused_with(CHROMATIC_ALL_USED), "all attempts are used");
    check(chromatic_may_send(pool, words, 1, first, CHROMATIC_LOWEST_LIMIT) == 1, "another notice has its own count");
    check(chromatic_may_send(pool, words, most, last, 3) == refused_with(CHROMATIC_ALL_USED), "all used, before no room");
    check(chromatic_may_send(pool, words, most, last, 4) == refused_with(CHROMATIC_NO_ROOM), "no room for a fourth");
    check(chromatic_may_send(pool, words, 1, 1, 1) == refused_with(CHROMATIC_NO_ROOM), "no room for another resident");
    check(chromatic_clear_notice(pool, words, most) == 3, "clear");
    check(chromatic_clear_notice(pool, words, most) == 0, "clear where no mark is left");
    check(marked(pool, words, CHROMATIC_TEXT_KEY(1, 0, 1)), "the other notice keeps its mark");
    check(chromatic_may_send(pool, words, most, last, 3) == 1, "the count begins afresh");
    check(chromatic_audit(pool, words) == CHROMATIC_GOOD, "audit after the texts");
}

int main(void) {
    uint32_t pool[CHROMATIC_POOL_WORDS(7)];
    uint32_t answers[7 * CHROMATIC_ANSWER_WORDS] = {0};
    const uint32_t expected[] = {0, 1, 0, 3, 0, 5, 0, 7, CHROMATIC_NO_ROOM, 0, CHROMATIC_KEY_PRESENT, 0, 0, 4};
    const uint8_t batch[] = {2, 10, 2, 20, 2, 30, 2, 40, 2, 50, 2, 40, CHROMATIC_SEARCH, 20};
    const uint8_t two_hundred[] = {CHROMATIC_SEARCH, 0xC8, 0x01};
    const uint64_t figures[] = {0, 7, 1, 0, 1, 0, 2, 16, 0};
    const size_t words = sizeof pool / sizeof pool[0], room = sizeof answers / sizeof answers[0];
    uint32_t index;
    uint64_t refused;

    numbers();
    limits();
    largest();
    places();
    memset(pool, 9, sizeof pool);
    check(chromatic_prepare(pool, words - 1) == CHROMATIC_WRONG_LENGTH, "prepare of a wrong length");
    check(chromatic_audit(pool, words) == CHROMATIC_RULES_BROKEN, "audit of noise");
    check(chromatic_prepare(pool, words) == CHROMATIC_GOOD, "prepare");
    check(chromatic_batch(pool, words, batch, sizeof batch, answers, room) == 0, "batch");
    check(memcmp(answers, expected, sizeof expected) == 0, "answers");
    check(chromatic_audit(pool, words) == CHROMATIC_GOOD, "audit");
    for (index = 0; index <= CHROMATIC_BOUND + 1; index++)
        check(chromatic_report(pool, words, index) == figures[index], "report");
    over_a_restart(pool, words);
    excess_weight();
    a_pool_of_before();
    spans();
    send_limit();
    refused = chromatic_batch(pool, words, batch, sizeof batch - 1, answers, 0);
    check(CHROMATIC_CODE(refused) == CHROMATIC_BAD_COMMAND && CHROMATIC_NUMBER(refused) == 13, "bad command");
    refused = chromatic_batch(pool, words, batch, sizeof batch, answers, room - 1);
    check(refused == refused_with(CHROMATIC_FEW_ANSWERS), "few answers");
    check(chromatic_interface_8() == CHROMATIC_INTERFACE, "the interface's number");
    check(chromatic_batch(pool, words, two_hundred, sizeof two_hundred, answers, room) == 0 && answers[0] == CHROMATIC_KEY_ABSENT, "200 in two bytes");

    check(chromatic_batch(pool, words, NOTHING, 0, NOTHING, 0) == 0, "an empty batch at NULL");
    check(CHROMATIC_CODE(chromatic_batch(pool, words, batch, sizeof batch, NOTHING, 0)) == CHROMATIC_FEW_ANSWERS, "no answers at NULL");
    check(chromatic_prepare(NOTHING, 0) == CHROMATIC_WRONG_LENGTH, "prepare at NULL");
    check(chromatic_audit(NOTHING, 0) == CHROMATIC_WRONG_LENGTH, "audit at NULL");
    check(chromatic_report(NOTHING, 0, CHROMATIC_NODES) == 0, "report at NULL");
    check(CHROMATIC_CODE(chromatic_batch(NOTHING, 0, NOTHING, 0, NOTHING, 0)) == CHROMATIC_WRONG_LENGTH, "batch at NULL");
    check(chromatic_audit(pool, words) == CHROMATIC_GOOD, "the pool is as it was");
    return failed;
}
