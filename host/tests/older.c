/* What an installation of an older commit does with pools and saved bytes of this one, and this one with those of the older. host/older compiles
 * this file twice, each time with that commit's header and archive:
 *   older serve                 answers calls of its library, read from standard input, on standard output;
 *   older compare OLDER TODAY   starts those two programs as servers, compares them, and prints a line for each group of tests.
 * A call brings the pool's words and its bytes along and takes the words back, so that a server remembers nothing. In a server the pool, the
 * bytes and the output each end where a page begins that may not be touched, and the pool lies, if so asked, in pages that may only be read: a
 * wrong access ends the server by a signal, and the comparison fails.
 * A "form" is saved bytes. Everything random comes from one generator with a fixed seed. */
#define _DEFAULT_SOURCE
#include "../include/chromatic.h"
#include <inttypes.h>
#include <signal.h>
#include <stdarg.h>
#include <stdio.h>
#include <stdlib.h>
#include <string.h>
#include <sys/mman.h>
#include <sys/wait.h>
#include <unistd.h>

enum { HEADER = 4, SLOT = 4, MOST_SLOTS = 16383, MOST_WORDS = HEADER + SLOT * (MOST_SLOTS + 1), MOST_BYTES = 1 << 17 };
enum { MOST_COMMANDS = 256, MOST_ANSWERS = 2 * MOST_COMMANDS, FIGURES = 7, MOST_LEVEL = 255 };
enum { LOCKED = 1, OPEN = 0 };
enum { NOISE = 0xA5 };
static const uint64_t SEED = UINT64_C(88172645463325252);

static void stop(const char *why) {
    fprintf(stderr, "older.c: %s\n", why);
    exit(2);
}

/* ---- Calls, and the server that answers them. */

enum what { INTERFACE, PREPARE, AUDIT, REPORT, BATCH, SAVE, LOAD, MAY_SEND, CLEAR_NOTICE };

struct call {
    uint32_t what, locked, argument[3];
    size_t words, in, out; /* of the pool, and the bytes that go in and come out */
};

/* Bytes that end where a page begins which may not be touched. */
struct area {
    uint8_t *begin, *end;
};

static struct area new_area(size_t bytes) {
    const size_t page = (size_t)sysconf(_SC_PAGESIZE), whole = (bytes + page - 1) / page * page;
    struct area area;

    area.begin = mmap(NULL, whole + page, PROT_READ | PROT_WRITE, MAP_PRIVATE | MAP_ANONYMOUS, -1, 0);
    if (area.begin == MAP_FAILED) stop("there is no memory");
    area.end = area.begin + whole;
    if (mprotect(area.end, page, PROT_NONE) != 0) stop("a page cannot be closed");
    return area;
}

static void protect(struct area area, int how) {
    if (mprotect(area.begin, (size_t)(area.end - area.begin), how) != 0) stop("the pool's pages cannot be protected");
}

static uint64_t answer_to(const struct call *call, uint32_t *pool, const uint8_t *in, uint8_t *out) {
    switch (call->what) {
    case INTERFACE: return (uint64_t)CHROMATIC_INTERFACE << 32 | CHROMATIC_MOST_SLOTS;
    case PREPARE: return chromatic_prepare(pool, call->words);
    case AUDIT: return chromatic_audit(pool, call->words);
    case REPORT: return chromatic_report(pool, call->words, call->argument[0]);
    /* A word has its alignment there: a page has it, and whole words before it have. */
    case BATCH: return chromatic_batch(pool, call->words, in, call->in, (uint32_t *)(void *)out, call->out / sizeof(uint32_t));
    case SAVE: return chromatic_save(pool, call->words, out, call->out);
    case LOAD: return chromatic_load(pool, call->words, in, call->in);
    case MAY_SEND: return chromatic_may_send(pool, call->words, call->argument[0], call->argument[1], call->argument[2]);
    case CLEAR_NOTICE: return chromatic_clear_notice(pool, call->words, call->argument[0]);
    default: stop("this call is not known");
    }
    return 0;
}

static int get(FILE *from, void *to, size_t bytes) { return bytes == 0 || fread(to, bytes, 1, from) == 1; }
static int put(FILE *to, const void *from, size_t bytes) { return bytes == 0 || fwrite(from, bytes, 1, to) == 1; }

static int serve(void) {
    const struct area pools = new_area(MOST_WORDS * sizeof(uint32_t)), ins = new_area(MOST_BYTES), outs = new_area(MOST_BYTES);
    struct call call;

    while (get(stdin, &call, sizeof call)) {
        const size_t bytes = call.words * sizeof(uint32_t);
        uint8_t *in = ins.end - call.in, *out = outs.end - call.out;
        uint32_t *pool = (uint32_t *)(void *)(pools.end - bytes);
        uint64_t result;
        if (call.words > MOST_WORDS || call.in > MOST_BYTES || call.out > MOST_BYTES) stop("a call is too long");
        if (!get(stdin, pool, bytes) || !get(stdin, in, call.in)) stop("a call is cut short");
        memset(out, NOISE, call.out);
        if (call.locked) protect(pools, PROT_READ);
        result = answer_to(&call, pool, in, out);
        if (call.locked) protect(pools, PROT_READ | PROT_WRITE);
        if (!put(stdout, &result, sizeof result) || !put(stdout, pool, bytes) || !put(stdout, out, call.out) || fflush(stdout) != 0) return 1;
    }
    return 0;
}

/* ---- Tests, and how they are counted. */

static unsigned passed = 0, failed = 0, passed_before = 0, failed_before = 0;

/* What the older answers comes first, or what was answered, then what today's does, or what was wanted. */
static void check(int holds, const char *what, uint32_t slots, uint64_t first, uint64_t second) {
    if (holds) {
        passed++;
    } else if (failed++ - failed_before < 5) {
        printf("FAILED: %s, C = %" PRIu32 ": %" PRIu64 " %" PRIu64 " and %" PRIu64 " %" PRIu64 "%s\n", what, slots, first >> 32, first & UINT32_MAX, second >> 32, second & UINT32_MAX,
               first == second ? ", but words or bytes differ" : "");
    }
}

/* Ends a group of tests with its line. */
__attribute__((format(printf, 1, 2))) static void group(const char *what, ...) {
    va_list words;

    if (passed == passed_before && failed == failed_before) failed++; /* nothing was tried */
    va_start(words, what);
    vprintf(what, words);
    va_end(words);
    printf(": %u passed, %u failed\n", passed - passed_before, failed - failed_before);
    fflush(stdout);
    passed_before = passed;
    failed_before = failed;
}

static int finish(void) {
    printf("%u passed, %u failed\n", passed, failed);
    return failed != 0 || passed == 0;
}

/* A fault after which there is nothing to compare. */
static void broken(const char *what) {
    printf("FAILED: %s\n", what);
    failed++;
    exit(finish());
}

/* ---- The two libraries. */

struct library {
    const char *name;
    uint32_t interface, most_slots;
    pid_t process;
    FILE *to, *from;
};

static struct library older = {"the older", 0, 0, 0, NULL, NULL}, today = {"today's", 0, 0, 0, NULL, NULL};

static void lost(const struct library *library) {
    int status = 0;

    printf("FAILED: %s library does not answer\n", library->name);
    if (waitpid(library->process, &status, 0) == library->process && WIFSIGNALED(status)) printf("signal %d ended it: it touched what it may not\n", WTERMSIG(status));
    failed++;
    exit(finish());
}

struct pool {
    size_t words;
    uint32_t word[MOST_WORDS];
};

struct bytes {
    size_t count;
    uint8_t byte[MOST_BYTES];
};

/* The call's lengths are those of pool, in and out. A null `out` is none. */
static uint64_t ask(struct library *library, struct call call, struct pool *pool, const struct bytes *in, struct bytes *out) {
    uint64_t result;

    call.words = pool->words;
    call.in = in ? in->count : 0;
    call.out = out ? out->count : 0;
    if (!put(library->to, &call, sizeof call) || !put(library->to, pool->word, pool->words * sizeof(uint32_t)) || (in && !put(library->to, in->byte, in->count)) ||
        fflush(library->to) != 0 || !get(library->from, &result, sizeof result) || !get(library->from, pool->word, pool->words * sizeof(uint32_t)) ||
        (out && !get(library->from, out->byte, out->count)))
        lost(library);
    return result;
}

static void start(struct library *library, const char *program) {
    static struct pool none = {0, {0}};
    const struct call greeting = {INTERFACE, OPEN, {0, 0, 0}, 0, 0, 0};
    int to[2], from[2];
    uint64_t said;

    if (pipe(to) != 0 || pipe(from) != 0) stop("there is no pipe");
    fflush(stdout);
    library->process = fork();
    if (library->process < 0) stop("no process can be started");
    if (library->process == 0) {
        if (dup2(to[0], STDIN_FILENO) < 0 || dup2(from[1], STDOUT_FILENO) < 0) _exit(2);
        close(to[0]), close(to[1]), close(from[0]), close(from[1]);
        execl(program, program, "serve", (char *)NULL);
        _exit(2);
    }
    close(to[0]), close(from[1]);
    library->to = fdopen(to[1], "wb");
    library->from = fdopen(from[0], "rb");
    if (!library->to || !library->from) stop("there is no pipe");
    said = ask(library, greeting, &none, NULL, NULL);
    library->interface = (uint32_t)(said >> 32);
    library->most_slots = (uint32_t)(said & UINT32_MAX);
}

static int same_words(const struct pool *a, const struct pool *b) {
    return a->words == b->words && memcmp(a->word, b->word, a->words * sizeof(uint32_t)) == 0;
}

static int same_bytes(const struct bytes *a, const struct bytes *b) {
    return a->count == b->count && memcmp(a->byte, b->byte, a->count) == 0;
}

static uint32_t slots_of(const struct pool *pool) { return (uint32_t)((pool->words - HEADER) / SLOT); }

static void copy(struct pool *to, const struct pool *from) {
    to->words = from->words;
    memcpy(to->word, from->word, from->words * sizeof(uint32_t));
}

/* One call on the same pool and bytes in both: the same answer, words and output. The pool is then as it left it. */
static uint64_t both(const char *what, struct call call, struct pool *pool, const struct bytes *in, size_t room, struct bytes *out) {
    static struct pool theirs;
    static struct bytes their_out;
    uint64_t a, b;

    copy(&theirs, pool);
    their_out.count = out->count = room;
    a = ask(&older, call, &theirs, in, &their_out);
    b = ask(&today, call, pool, in, out);
    check(a == b && same_words(&theirs, pool) && same_bytes(&their_out, out), what, slots_of(pool), a, b);
    return b;
}

/* ---- Random numbers, batches and pools. */

static uint64_t state;

static uint32_t any(void) {
    state ^= state << 13;
    state ^= state >> 7;
    state ^= state << 17;
    return (uint32_t)(state >> 24);
}

static uint32_t below(uint32_t end) { return any() % end; }
static uint32_t from_to(uint32_t first, uint32_t last) { return first + below(last - first + 1); }

static void put_number(struct bytes *to, uint32_t number) {
    if (to->count + 6 > MOST_BYTES) stop("bytes are too long");
    for (; number >= 0x80; number >>= 7) to->byte[to->count++] = (uint8_t)(number | 0x80);
    to->byte[to->count++] = (uint8_t)number;
}

/* Fills a pool of so many slots with words that are no pool's. */
static void noise(struct pool *pool, uint32_t slots) {
    pool->words = HEADER + SLOT * (size_t)slots;
    for (size_t i = 0; i < pool->words; i++) pool->word[i] = any();
}

static const struct call PLAIN_PREPARE = {PREPARE, OPEN, {0, 0, 0}, 0, 0, 0}, PLAIN_AUDIT = {AUDIT, OPEN, {0, 0, 0}, 0, 0, 0},
                         PLAIN_BATCH = {BATCH, OPEN, {0, 0, 0}, 0, 0, 0}, PLAIN_SAVE = {SAVE, OPEN, {0, 0, 0}, 0, 0, 0},
                         PLAIN_LOAD = {LOAD, OPEN, {0, 0, 0}, 0, 0, 0}, LOCKED_LOAD = {LOAD, LOCKED, {0, 0, 0}, 0, 0, 0};

/* Keys of a pool: those of five bytes take the most room, of the others a search finds one of four. */
static uint32_t some_key(uint32_t slots, int five) { return five ? any() | UINT32_C(1) << 28 : below(2 * slots + 2); }

/* A command that may be refused, or change much or little. */
static void put_command(struct bytes *batch, uint32_t slots, int five) {
    const uint32_t first = some_key(slots, five), last = below(4) ? first + below(five ? 1 << 20 : 8) : some_key(slots, five);

    switch (below(16)) {
    case 0: case 1: case 2: case 3: case 4: put_number(batch, CHROMATIC_INSERT), put_number(batch, first); break;
    case 5: case 6: case 7: put_number(batch, CHROMATIC_DELETE), put_number(batch, first); break;
    case 8: put_number(batch, CHROMATIC_SEARCH), put_number(batch, first); break;
    case 9: case 10: case 11: put_number(batch, CHROMATIC_STEP), put_number(batch, below(slots + 2)), put_number(batch, below(10)); break;
    case 12: put_number(batch, CHROMATIC_SETTLE), put_number(batch, below(4)); break;
    case 13: put_number(batch, CHROMATIC_AT_OR_ABOVE), put_number(batch, first); break;
    case 14: put_number(batch, CHROMATIC_COUNT), put_number(batch, first), put_number(batch, last); break;
    default: put_number(batch, CHROMATIC_DELETE_SPAN), put_number(batch, first), put_number(batch, below(4) ? first : last); break;
    }
}

/* Runs a good batch; gives the code of its last answer. */
static uint32_t run(struct library *library, struct pool *pool, const struct bytes *batch, uint32_t commands) {
    static struct bytes out;
    uint32_t answer[MOST_ANSWERS];

    out.count = 2 * sizeof(uint32_t) * commands;
    if (commands > MOST_COMMANDS || ask(library, PLAIN_BATCH, pool, batch, &out) != 0) broken("a good batch is refused");
    memcpy(answer, out.byte, out.count);
    return answer[2 * commands - 2];
}

enum contents { EMPTY, ONE, SOME, FULL, WORKED, CONTENTS };

/* A pool of this library. */
static void make(struct library *library, struct pool *pool, uint32_t slots, enum contents contents, int five, int settled) {
    static struct bytes batch;
    const uint32_t keys = contents == EMPTY ? 0 : contents == ONE ? 1 : contents == FULL ? UINT32_MAX : slots / 4 + 1;
    uint32_t code = CHROMATIC_GOOD;

    noise(pool, slots);
    if (ask(library, PLAIN_PREPARE, pool, NULL, NULL) != CHROMATIC_GOOD) broken("prepare is refused");
    for (uint32_t done = 0, commands; done < keys && code != CHROMATIC_NO_ROOM; done += commands) {
        batch.count = 0;
        for (commands = 0; commands < MOST_COMMANDS && commands < keys - done; commands++) put_number(&batch, CHROMATIC_INSERT), put_number(&batch, some_key(slots, five));
        code = run(library, pool, &batch, commands);
    }
    for (uint32_t turn = 0; contents == WORKED && turn < 4; turn++) {
        batch.count = 0;
        for (uint32_t i = 0; i < 100; i++) put_command(&batch, slots, five);
        run(library, pool, &batch, 100);
    }
    batch.count = 0;
    put_number(&batch, CHROMATIC_SETTLE), put_number(&batch, UINT32_MAX);
    if (settled) run(library, pool, &batch, 1);
    if (ask(library, PLAIN_AUDIT, pool, NULL, NULL) != CHROMATIC_GOOD) broken("a pool fails the audit of the library that made it");
}

static void save(struct library *library, struct pool *pool, struct bytes *form) {
    uint64_t result;

    form->count = CHROMATIC_SAVED_BYTES(slots_of(pool));
    result = ask(library, PLAIN_SAVE, pool, NULL, form);
    if (CHROMATIC_CODE(result) != CHROMATIC_GOOD || CHROMATIC_NUMBER(result) > form->count) broken("a good pool is not saved");
    form->count = CHROMATIC_NUMBER(result);
}

/* ---- Forms written by hand: any tree that the audit takes, with a given L. */

enum lean { EVEN, ANYHOW, LEFT, RIGHT, LEANS };

struct tree {
    struct bytes *form;
    enum lean lean;
    uint32_t red, key[(MOST_SLOTS + 1) / 2]; /* of 8 inner edges about so many are red; keys that rise */
};

/* The node over so many keys, from the first on, and what is below it. From its parent it is `level` to a leaf. */
static void put_tree(const struct tree *tree, uint32_t first, uint32_t keys, uint32_t level, int root) {
    const uint32_t inner = below(8) < tree->red ? 0 : below(level), weight = root ? 1 : keys == 1 ? level : inner;
    uint32_t left = 1;

    put_number(tree->form, 2 * weight + (keys > 1));
    if (keys == 1) {
        put_number(tree->form, tree->key[first]);
        return;
    }
    if (tree->lean == EVEN) left = keys / 2;
    if (tree->lean == ANYHOW) left = from_to(1, keys - 1);
    if (tree->lean == LEFT) left = keys - 1;
    put_number(tree->form, from_to(tree->key[first + left - 1], tree->key[first + left] - 1));
    put_tree(tree, first, left, root ? level : level - weight, 0);
    put_tree(tree, first + left, keys - left, root ? level : level - weight, 0);
}

static void put_form(struct bytes *form, uint32_t slots, uint32_t keys, uint32_t level, enum lean lean) {
    static struct tree tree;
    uint32_t key = below(2) ? below(100) : UINT32_C(1) << 28;

    tree.form = form;
    tree.lean = lean;
    tree.red = below(9);
    for (uint32_t i = 0; i < keys; i++) tree.key[i] = key += from_to(1, 1000);
    form->count = 0;
    put_number(form, slots), put_number(form, keys ? 2 * keys - 1 : 0);
    if (keys) put_tree(&tree, 0, keys, level, 1);
}

/* ---- Damage. */

/* The number at `*at`, in shortest form, and steps over it; or 0, where none is. */
static int get_number(const struct bytes *from, size_t *at, uint32_t *number) {
    *number = 0;
    for (unsigned group = 0; group < 5 && *at < from->count; group++) {
        const uint8_t byte = from->byte[(*at)++];
        if (group == 4 && byte > 0x0F) return 0;
        *number |= (uint32_t)(byte & 0x7F) << 7 * group;
        if (byte < 0x80) return byte != 0 || group == 0;
    }
    return 0;
}

static uint32_t odd_number(void) {
    switch (below(5)) {
    case 0: return below(4);
    case 1: return below(older.most_slots + 2);
    case 2: return from_to(older.most_slots, today.most_slots + 1);
    case 3: return below(2 * MOST_LEVEL + 4);
    default: return any();
    }
}

/* Writes a good form anew with one of its numbers changed, or with more groups than needed. */
static void change_number(struct bytes *to, const struct bytes *form) {
    uint32_t number, count = 0, place;
    size_t at = 0;

    while (at < form->count && get_number(form, &at, &number)) count++;
    place = below(3) ? below(count) : below(2);
    to->count = 0;
    at = 0;
    for (uint32_t i = 0; i < count && get_number(form, &at, &number); i++) {
        const uint32_t how = i == place ? below(5) : 5;
        put_number(to, how == 0 ? number + 1 : how == 1 ? number - 1 : how == 2 ? number ^ 1U << below(9) : how == 3 ? odd_number() : number);
        if (how != 4) continue;
        to->byte[to->count - 1] |= 0x80;
        to->byte[to->count++] = 0;
    }
}

static void damage(struct bytes *to, const struct bytes *form) {
    const size_t at = below((uint32_t)form->count), rest = form->count - at;

    memcpy(to->byte, form->byte, form->count);
    to->count = form->count;
    switch (below(10)) {
    case 0: to->byte[at] = (uint8_t)any(); break;
    case 1: to->byte[at] = (uint8_t)(to->byte[at] ^ 1U << below(8)); break;
    case 2: memmove(to->byte + at, form->byte + at + 1, rest - 1), to->count--; break;
    case 3: memmove(to->byte + at + 1, form->byte + at, rest), to->byte[at] = (uint8_t)any(), to->count++; break;
    case 4: to->count = at; break;
    case 5: for (uint32_t more = from_to(1, 3); more > 0; more--) to->byte[to->count++] = (uint8_t)any(); break;
    default: change_number(to, form);
    }
}

/* ---- The tests. */

static struct pool pool, other;
static struct bytes form, again, bad, scratch;

static uint64_t refusal(uint32_t code, size_t number) { return (uint64_t)code << 32 | number; }

/* A load that the older library refuses so, and writes nothing: into words that are no pool's, and, in pages that may only be read, into one of
 * its pools with marks. */
static void refused(const char *what, uint32_t slots, uint64_t want) {
    uint64_t result;

    noise(&pool, slots);
    copy(&other, &pool);
    result = ask(&older, PLAIN_LOAD, &pool, &form, NULL);
    check(result == want && same_words(&pool, &other), what, slots, result, want);
    if (slots <= older.most_slots) make(&older, &pool, slots, WORKED, 0, 0);
    copy(&other, &pool);
    result = ask(&older, LOCKED_LOAD, &pool, &form, NULL);
    check(result == want && same_words(&pool, &other), what, slots, result, want);
}

/* This library reads the form into a pool of its C, with the answer N, and writes it again. */
static void reads_back(struct library *library, uint32_t slots) {
    uint32_t c, n;
    size_t at = 0;
    uint64_t result;

    if (!get_number(&form, &at, &c) || !get_number(&form, &at, &n) || c != slots) broken("a form has another C");
    noise(&pool, slots);
    result = ask(library, PLAIN_LOAD, &pool, &form, NULL);
    check(result == n && ask(library, PLAIN_AUDIT, &pool, NULL, NULL) == CHROMATIC_GOOD, "a form is read by whoever wrote it", slots, result, n);
    save(library, &pool, &again);
    check(same_bytes(&form, &again), "a form is written again", slots, again.count, form.count);
}

static const uint32_t larger[] = {1024, 1025, 2047, 4095, 8192, MOST_SLOTS}, smaller[] = {1, 9, 127, 1023};
enum { LARGER = sizeof larger / sizeof larger[0], SMALLER = sizeof smaller / sizeof smaller[0] };

static unsigned larger_forms = 0, by_hand = 0;

/* One form of today's library, with more slots than the older knows. */
static void one_larger(uint32_t slots) {
    for (size_t i = 0; i < SMALLER; i++) refused("a larger form", smaller[i], refusal(CHROMATIC_BAD_SAVED, form.count));
    refused("a larger form, into a larger pool", slots, refusal(CHROMATIC_WRONG_LENGTH, 0));
    refused("a larger form, into a larger pool", slots == MOST_SLOTS ? 1024 : MOST_SLOTS, refusal(CHROMATIC_WRONG_LENGTH, 0));
    reads_back(&today, slots);
    larger_forms++;
}

static void larger_saved(void) {
    for (size_t i = 0; i < LARGER; i++) {
        for (uint32_t contents = 0; contents < CONTENTS; contents++) {
            for (int way = 0; way < 4; way++) { /* short keys or long, settled or not */
                make(&today, &pool, larger[i], (enum contents)contents, way & 1, way & 2);
                save(&today, &pool, &form);
                one_larger(larger[i]);
            }
        }
        for (uint32_t turn = 0; turn < 4 * LEANS; turn++, by_hand++) {
            put_form(&form, larger[i], from_to(2, (larger[i] + 1) / 2), turn < LEANS ? MOST_LEVEL : from_to(1, MOST_LEVEL), (enum lean)(turn % LEANS));
            one_larger(larger[i]);
        }
    }
    group("%u forms of today's with 1,024 to 16,383 slots, %u of them made by hand, L up to %d: read by today's and written again; by the older refused with 13 and their count for pools of 1 to 1,023 slots, with 1 for larger ones, nothing written",
          larger_forms, by_hand, MOST_LEVEL);
}

static struct {
    unsigned forms, bytes, good, misread, misfit, larger;
} seen;

/* Bytes that went bad: the same from both, but where C is one that only today's takes. */
static void one_bad(uint32_t slots) {
    uint32_t c;
    size_t at = 0;
    uint64_t a, b;
    int only_today;

    damage(&bad, &form);
    only_today = get_number(&bad, &at, &c) && c > older.most_slots && c <= today.most_slots;
    noise(&pool, slots);
    copy(&other, &pool);
    a = ask(&older, PLAIN_LOAD, &other, &bad, NULL);
    seen.bytes++;
    if (only_today) {
        /* Today's goes on to compare C with the pool's. Where it finds a bad number too, it is the same one. */
        b = ask(&today, PLAIN_LOAD, &pool, &bad, NULL);
        check(same_words(&pool, &other) && CHROMATIC_CODE(a) == CHROMATIC_BAD_SAVED && (a == b || (b == refusal(CHROMATIC_NO_FIT, 0) && CHROMATIC_NUMBER(a) == bad.count)),
              "bad bytes with a larger C", slots, a, b);
        seen.larger++;
        return;
    }
    b = ask(&today, PLAIN_LOAD, &pool, &bad, NULL);
    check(a == b && same_words(&pool, &other), "bad bytes", slots, a, b);
    if (CHROMATIC_CODE(b) == CHROMATIC_GOOD) seen.good++;
    if (CHROMATIC_CODE(b) == CHROMATIC_BAD_SAVED) seen.misread++;
    if (CHROMATIC_CODE(b) == CHROMATIC_NO_FIT) seen.misfit++;
}

/* A form of the older library: read by today's to the same words, and written by it to the same bytes. */
static void one_older(uint32_t slots) {
    const uint32_t others[] = {slots > 1 ? slots - 1 : 2, slots < older.most_slots ? slots + 1 : 1, from_to(1, older.most_slots)};

    reads_back(&older, slots);
    noise(&pool, slots);
    both("a form of the older, read", PLAIN_LOAD, &pool, &form, 0, &scratch);
    check(both("the pool read, audited", PLAIN_AUDIT, &pool, NULL, 0, &scratch) == CHROMATIC_GOOD, "the pool read is good", slots, 0, 0);
    save(&today, &pool, &again);
    check(same_bytes(&form, &again), "a form of the older, written by today's", slots, form.count, again.count);
    for (size_t i = 0; i < sizeof others / sizeof others[0]; i++) {
        if (others[i] == slots) continue;
        noise(&pool, others[i]);
        copy(&other, &pool);
        check(both("a form of the older, another C", LOCKED_LOAD, &pool, &form, 0, &scratch) == refusal(CHROMATIC_NO_FIT, 0) && same_words(&pool, &other), "another C is 14", others[i], 0, 0);
    }
    seen.forms++;
}

/* The slots of the pools that are made: all small ones, those about a power of two, and some between. */
enum { SMALL = 40, SIZES = 80 };
static uint32_t sizes[SIZES];

static void choose_sizes(void) {
    uint32_t n = 0;

    while (n < SMALL) sizes[n] = n + 1, n++;
    for (uint32_t power = 64; power <= 1024; power *= 2) {
        for (uint32_t less = power == 1024 ? 1 : 0; less <= 3; less++) sizes[n++] = power - less;
    }
    while (n < SIZES) sizes[n++] = from_to(SMALL + 1, older.most_slots);
}

static void older_saved(void) {
    for (size_t i = 0; i < SIZES; i++) {
        for (uint32_t contents = 0; contents < CONTENTS; contents++) {
            for (int way = 0; way < 4; way++) {
                make(&older, &pool, sizes[i], (enum contents)contents, way & 1, way & 2);
                save(&older, &pool, &form);
                one_older(sizes[i]);
            }
        }
    }
    group("%u forms of the older with 1 to %" PRIu32 " slots: read by today's to the same words and written to the same bytes, 14 from both for pools of another C", seen.forms, older.most_slots);
    seen.forms = 0;
    for (uint32_t level = 1; level <= MOST_LEVEL; level++) {
        for (uint32_t lean = 0; lean < LEANS; lean++) {
            const uint32_t slots = below(2) ? from_to(3, older.most_slots) : sizes[from_to(2, SIZES - 1)], most = (slots + 1) / 2;
            put_form(&form, slots, below(4) ? from_to(2, most) : most, level, (enum lean)lean);
            one_older(slots);
            noise(&pool, slots);
            ask(&today, PLAIN_LOAD, &pool, &form, NULL);
            check(pool.word[3] == level, "L of a form made by hand", slots, pool.word[3], level);
        }
    }
    group("%u forms made by hand, every L from 1 to %d, which the older reads and writes again: the same of them", seen.forms, MOST_LEVEL);
}

static void damaged_saved(void) {
    for (uint32_t turn = 0; turn < 3000; turn++) {
        const uint32_t slots = sizes[below(SIZES)];
        if (below(2)) {
            put_form(&form, slots, below((slots + 1) / 2 + 1), from_to(1, MOST_LEVEL), (enum lean)below(LEANS));
        } else {
            make(&older, &pool, slots, (enum contents)below(CONTENTS), (int)below(2), (int)below(2));
            save(&older, &pool, &form);
        }
        for (uint32_t i = 0; i < 16; i++) one_bad(slots);
    }
    if (!seen.misread || !seen.misfit || !seen.good || !seen.larger) failed++; /* one of the cases was not met */
    group("%u damaged forms: the same answer, number and words from both (13 for %u, 14 for %u, still good %u); %u more with a C that only today's takes, 13 from the older", seen.bytes - seen.larger,
          seen.misread, seen.misfit, seen.good, seen.larger);
}

/* What both say of a pool's words, whatever they are; none of it changes them. */
static uint64_t judged(void) {
    const struct call asking = {BATCH, LOCKED, {0, 0, 0}, 0, 0, 0}, auditing = {AUDIT, LOCKED, {0, 0, 0}, 0, 0, 0}, saving = {SAVE, LOCKED, {0, 0, 0}, 0, 0, 0};
    struct call report = {REPORT, LOCKED, {0, 0, 0}, 0, 0, 0};
    const uint64_t code = both("the audit", auditing, &pool, NULL, 0, &scratch);

    for (report.argument[0] = 0; report.argument[0] <= FIGURES + 1; report.argument[0]++) both("the report", report, &pool, NULL, 0, &scratch);
    both("save", saving, &pool, NULL, CHROMATIC_SAVED_BYTES(slots_of(&pool)), &scratch);
    form.count = 0;
    put_number(&form, CHROMATIC_COUNT), put_number(&form, 0), put_number(&form, UINT32_MAX);
    both("a count", asking, &pool, &form, 2 * sizeof(uint32_t), &scratch);
    return code;
}

static void pools_taken_over(void) {
    unsigned pools = 0, commands = 0;

    for (size_t i = 0; i < SIZES; i++) {
        for (uint32_t contents = 0; contents < CONTENTS; contents++) {
            const int five = (int)below(2);
            make(i % 2 ? &older : &today, &pool, sizes[i], (enum contents)contents, five, (int)below(2));
            pools++;
            for (uint32_t turn = 0; turn < 3; turn++) {
                const struct call sends = {MAY_SEND, OPEN, {from_to(1, 3), below(8), from_to(1, 7)}, 0, 0, 0}, clears = {CLEAR_NOTICE, OPEN, {below(5), 0, 0}, 0, 0, 0};
                check(judged() == CHROMATIC_GOOD, "a pool is taken over", sizes[i], 0, 0);
                form.count = 0;
                for (uint32_t n = 0; n < 64; n++, commands++) put_command(&form, sizes[i], five);
                check(both("a batch", PLAIN_BATCH, &pool, &form, 64 * 2 * sizeof(uint32_t), &scratch) == 0, "a batch runs", sizes[i], 0, 0);
                for (uint32_t n = 0; n < 8; n++) both("may send", sends, &pool, NULL, 0, &scratch);
                both("clear a notice", clears, &pool, NULL, 0, &scratch);
            }
        }
    }
    group("%u pools with 1 to %" PRIu32 " slots, made by the one or the other, and %u commands on them: audit 0, the same report, answers, saved bytes and words from both", pools, older.most_slots, commands);
}

static void damaged_pools(void) {
    unsigned pools = 0, refusals = 0;

    for (uint32_t turn = 0; turn < 2000; turn++, pools++) {
        const uint32_t slots = sizes[below(SIZES)];
        make(&older, &pool, slots, (enum contents)below(CONTENTS), (int)below(2), (int)below(2));
        for (uint32_t i = from_to(1, 2); i > 0; i--) {
            const uint32_t at = below(2) ? below(HEADER) : below((uint32_t)pool.words);
            pool.word[at] = below(2) ? pool.word[at] + from_to(1, 2) - 3 * below(2) : below(2) ? below(slots + 2) : any();
        }
        if (judged() == CHROMATIC_RULES_BROKEN) refusals++;
    }
    group("%u pools of the older with a word or two changed, %u of them then refused with 2: the same audit, report, save and answer from both", pools, refusals);
}

static void lengths(void) {
    const uint32_t most = HEADER + SLOT * older.most_slots;
    const struct call prepares = {PREPARE, LOCKED, {0, 0, 0}, 0, 0, 0};

    for (uint32_t words = 0; words < most + SLOT; words++) {
        noise(&pool, older.most_slots + 1);
        pool.words = words;
        both("prepare", PLAIN_PREPARE, &pool, NULL, 0, &scratch);
        both("the audit", PLAIN_AUDIT, &pool, NULL, 0, &scratch);
    }
    group("words of every number up to %" PRIu32 ": the same from prepare and audit of both", most + SLOT - 1);
    for (size_t i = 0; i < LARGER; i++) {
        struct call call = {PREPARE, LOCKED, {0, 0, 0}, 0, 0, 0};
        uint64_t result;
        make(&today, &pool, larger[i], WORKED, 1, 0);
        copy(&other, &pool);
        result = ask(&older, prepares, &pool, NULL, NULL);
        check(result == CHROMATIC_WRONG_LENGTH, "prepare of a larger pool", larger[i], result, CHROMATIC_WRONG_LENGTH);
        for (call.what = AUDIT; call.what <= CLEAR_NOTICE; call.what++) {
            const uint64_t want = call.what == AUDIT ? CHROMATIC_WRONG_LENGTH : call.what == REPORT ? 0 : refusal(CHROMATIC_WRONG_LENGTH, 0);
            form.count = scratch.count = 2;
            form.byte[0] = CHROMATIC_SEARCH, form.byte[1] = 9;
            if (call.what == BATCH) scratch.count = 2 * sizeof(uint32_t);
            call.argument[0] = call.argument[1] = call.argument[2] = 1;
            result = ask(&older, call, &pool, &form, &scratch);
            check(result == want && same_words(&pool, &other), "a call on a larger pool", larger[i], result, want);
            for (size_t b = 0; b < scratch.count; b++) check(scratch.byte[b] == NOISE, "output of a refused call", larger[i], scratch.byte[b], NOISE);
        }
    }
    group("pools of today's with 1,024 to 16,383 slots: 1 from every call of the older, nothing written");
}

static int compare(const char *older_program, const char *todays_program) {
    signal(SIGPIPE, SIG_IGN);
    start(&older, older_program);
    start(&today, todays_program);
    printf("the older: interface %" PRIu32 ", up to %" PRIu32 " slots; today's: interface %" PRIu32 ", up to %" PRIu32 " slots; seed %" PRIu64 "\n", older.interface, older.most_slots, today.interface,
           today.most_slots, SEED);
    fflush(stdout);
    if (older.most_slots != 1023 || today.most_slots < MOST_SLOTS) stop("this compares a library of 1,023 slots with one of 16,383");
    state = SEED;
    choose_sizes();
    larger_saved();
    older_saved();
    damaged_saved();
    pools_taken_over();
    damaged_pools();
    lengths();
    return finish();
}

int main(int count, char **words) {
    if (count == 2 && strcmp(words[1], "serve") == 0) return serve();
    if (count == 4 && strcmp(words[1], "compare") == 0) return compare(words[2], words[3]);
    stop("usage: older serve | older compare OLDER TODAY");
    return 2;
}
