/* How often a command reads and writes each word of the pool. host/accesses runs this twice:
 *   accesses perform >LOG                under valgrind's lackey, which writes every load and store of the program to a trace;
 *   accesses count LOG TRACE [--words]   takes from LOG what each call answered and left, and from TRACE what it touched, and prints.
 * A call stands between two stores to `mark`, and accesses to `lent`, where its pool is, are counted by word: a wider one for each word that
 * it covers, a modifying one as a read and a write.
 * A command runs in a batch of its own, or as the second of two. What it did itself is the difference to the same call on the same pool with
 * a command in its place that needs no word, a step at a slot above C: the audit, the command before it, and the header as the call takes it
 * and puts it back, are in both. (An empty batch will not do: there the compiler reads the header otherwise.) That such a command touches no
 * slot beyond what the call does without it is one of the verdicts.
 * Settle scans, takes a step and scans again, up to its budget; the last scan takes nothing. So the settle with budget n is the one with n - 1,
 * the taking of step n, and a scan of the pool that this step leaves. That scan is the settle with budget 0 on that pool: taken off, it
 * leaves the taking alone. Where v is in slot 1, where each scan begins, the scan before the step is the look at v and nothing else: added, it
 * gives look and taking.
 * A load that the compiler puts off until the step is sure is in the taking, and not in a scan that takes nothing. So what a taking may
 * read is a word that the scan before it did not, once. Where v is not in slot 1 that asks a little more than the rule does, since the scan
 * looked at lower slots too. (Today a taking reads nothing in the library's archive, and in the cousin's one word that was put off.)
 * A later step, or a second command, must also touch each word as often as it does as the first on that pool. (A compiler that treats the
 * first apart could break this one verdict without a fault.)
 * Of a command over a span it is said how often it may read a slot, its words at most so often each, by the ways of searches in its pool: 6 by
 * one way, and one more from where the last turn to the left could have gone if the first ends below the key; 8 by such ways, the way of a
 * delete and the slots that this writes, for each key. The leaf where a way ends may be read twice, since its key is looked at after the way. 7
 * reads the slots on the ways to both ends of its span and to every key in it, each once and every one of them, and no other slot. */
#include "../include/chromatic.h"
#include <inttypes.h>
#include <stdatomic.h>
#include <stdio.h>
#include <stdlib.h>
#include <string.h>

enum { HEADER = 4, SLOT = 4, MOST_SLOTS = 127, MOST_COMMANDS = 2, MOST_WORDS = HEADER + SLOT * MOST_SLOTS };
enum { KEY, LEFT, RIGHT, WEIGHT };
enum { ROOT }; /* of the header */

static union {
    uint32_t word[MOST_WORDS];
    uint64_t two[MOST_WORDS / 2];
    uint8_t byte[4 * MOST_WORDS];
} lent;
static volatile uint32_t mark;

static int counting = 0, each_word = 0, passed = 0, failed = 0;
static FILE *log_file, *trace;
static uint64_t lent_at, mark_at; /* where they were in the program that was traced */

static void stop(const char *why) {
    fprintf(stderr, "accesses.c: %s\n", why);
    exit(2);
}

struct pool {
    size_t words;
    uint32_t word[MOST_WORDS];
};

/* How often each word was read and written. */
struct counts {
    int32_t reads[MOST_WORDS], writes[MOST_WORDS];
};

/* By reference, since copies would lengthen the trace. */
struct call {
    uint32_t code, number;
    const struct pool *before, *after;
    const struct counts *touched; /* where they are counted */
};

static struct pool *new_pool(size_t words) {
    static struct pool pools[2000];
    static size_t count = 0;

    if (count == sizeof pools / sizeof pools[0]) stop("too many pools");
    pools[count].words = words;
    return &pools[count++];
}

static struct counts *new_counts(void) {
    struct counts *counts = counting ? calloc(1, sizeof *counts) : NULL;

    if (counting && !counts) stop("there is no memory");
    return counts;
}

/* The trace. */

struct access {
    int reads, writes;
    uint64_t from, size;
};

/* The next load or store. A line of the trace: a letter, the address in hexadecimal, the number of bytes. */
static int next_access(struct access *a) {
    char line[256], letter;

    while (fgets(line, sizeof line, trace)) {
        if (sscanf(line, " %c %" SCNx64 ",%" SCNu64, &letter, &a->from, &a->size) == 3 && line[0] == ' ' && strchr("LSM", letter)) {
            a->reads = letter != 'S';
            a->writes = letter != 'L';
            return 1;
        }
    }
    return 0;
}

static int is_mark(const struct access *a) {
    return a->writes && a->from == mark_at;
}

static void count_access(struct counts *counts, const struct access *a) {
    const uint64_t end = a->from + a->size, lent_end = lent_at + sizeof lent;
    const uint64_t first = a->from > lent_at ? a->from : lent_at, last = end < lent_end ? end : lent_end;

    if (first >= last) return;
    for (uint64_t word = (first - lent_at) / sizeof lent.word[0]; word <= (last - 1 - lent_at) / sizeof lent.word[0]; word++) {
        counts->reads[word] += a->reads;
        counts->writes[word] += a->writes;
    }
}

/* What lies between the next two marks. */
static void count_call(struct counts *counts) {
    struct access a;

    do {
        if (!next_access(&a)) stop("the trace ends before the calls do");
    } while (!is_mark(&a));
    for (;;) {
        if (!next_access(&a)) stop("the trace ends within a call");
        if (is_mark(&a)) return;
        count_access(counts, &a);
    }
}

/* Calls: performed and written down, or read back and counted. */

static void kept(void *what, size_t bytes) {
    if (counting ? fread(what, bytes, 1, log_file) != 1 : fwrite(what, bytes, 1, stdout) != 1) stop("the log cannot be read or written");
}

/* The fences keep the compiler from moving what stands before a mark to behind it, or the other way round. */
static void set_mark(uint32_t value) {
    atomic_signal_fence(memory_order_seq_cst);
    mark = value;
    atomic_signal_fence(memory_order_seq_cst);
}

/* Accesses that are known: `known_are_counted` says what they come to. */
static void known_accesses(void) {
    volatile uint32_t *word = lent.word;
    volatile uint64_t *two = lent.two;
    volatile uint8_t *byte = lent.byte;

    (void)word[5];
    (void)word[5];
    (void)two[3];
    two[4] = 1;
    word[11] = 0;
    word[13] |= 1;
    (void)byte[4 * 14 + 1];
}

struct batch {
    uint32_t commands;
    size_t bytes;
    uint8_t byte[8];
};

static const struct batch none = {0, 0, {0}};

static struct batch then(const struct batch *before, const uint8_t *command, size_t bytes) {
    struct batch batch = *before;

    if (batch.commands == MOST_COMMANDS || batch.bytes + bytes > sizeof batch.byte) stop("a batch of the table is too long");
    memcpy(batch.byte + batch.bytes, command, bytes);
    batch.bytes += bytes;
    batch.commands++;
    return batch;
}

/* A slot up to 127 is one byte. */
static struct batch then_step(const struct batch *before, uint32_t slot, uint32_t kind) {
    const uint8_t command[] = {CHROMATIC_STEP, (uint8_t)slot, (uint8_t)kind};

    return then(before, command, sizeof command);
}

/* A batch, with the answer of its last command; or the audit alone, where there is no command; or, where there is no pool, the accesses
 * that are known. */
static struct call call(const struct pool *on, const struct batch *batch) {
    uint32_t answer[MOST_COMMANDS][CHROMATIC_ANSWER_WORDS] = {{0}};
    const uint32_t last = batch->commands == 0 ? 0 : batch->commands - 1;
    const size_t pool_bytes = on->words * sizeof on->word[0];
    struct pool *after = new_pool(on->words);
    struct counts *touched = new_counts();
    uint64_t whole = 0;

    if (!counting) {
        memcpy(lent.word, on->word, pool_bytes);
        set_mark(1);
        if (on->words == 0) {
            known_accesses();
        } else if (batch->commands == 0) {
            whole = chromatic_audit(lent.word, on->words);
        } else {
            whole = chromatic_batch(lent.word, on->words, batch->byte, batch->bytes, answer[0], (size_t)batch->commands * CHROMATIC_ANSWER_WORDS);
        }
        set_mark(0);
        if (whole != 0) stop("a call is refused whole");
        memcpy(after->word, lent.word, pool_bytes);
    }
    kept(answer, sizeof answer);
    if (pool_bytes > 0) kept(after->word, pool_bytes);
    if (counting) count_call(touched);
    return (struct call){answer[last][0], answer[last][1], on, after, touched};
}

static const struct counts *sum_of(const struct counts *a, int32_t sign, const struct counts *b) {
    struct counts *sum = new_counts();

    for (size_t word = 0; counting && word < MOST_WORDS; word++) {
        sum->reads[word] = a->reads[word] + sign * b->reads[word];
        sum->writes[word] = a->writes[word] + sign * b->writes[word];
    }
    return sum;
}

static const struct counts *less(const struct counts *a, const struct counts *b) {
    return sum_of(a, -1, b);
}

static const struct counts *plus(const struct counts *a, const struct counts *b) {
    return sum_of(a, 1, b);
}

/* A step at slot 16,384, which is above every C. */
static struct call idle_call(const struct pool *on, const struct batch *before) {
    static const uint8_t command[] = {CHROMATIC_STEP, 0x80, 0x80, 1, 4};
    const struct batch batch = then(before, command, sizeof command);

    return call(on, &batch);
}

/* What a command did itself, after those that are before it in the batch. Its pool is the one that they leave. */
static struct call own(const struct pool *on, const struct batch *before, const uint8_t *command, size_t bytes) {
    const struct call idle = idle_call(on, before);
    const struct batch batch = then(before, command, bytes);
    struct call c = call(on, &batch);

    c.touched = less(c.touched, idle.touched);
    c.before = idle.after;
    return c;
}

static struct call settle(const struct pool *on, const struct batch *before, uint32_t budget) {
    const uint8_t command[] = {CHROMATIC_SETTLE, (uint8_t)budget};

    return own(on, before, command, sizeof command);
}

static int same_pool(const struct pool *a, const struct pool *b) {
    return a->words == b->words && memcmp(a->word, b->word, a->words * sizeof a->word[0]) == 0;
}

static const struct pool *loaded(const uint8_t *saved, size_t bytes) {
    struct pool *pool = new_pool(CHROMATIC_POOL_WORDS(saved[0]));

    if (saved[0] > MOST_SLOTS || chromatic_load(pool->word, pool->words, saved, bytes) != saved[1]) stop("a pool of the table is not sound");
    return pool;
}

/* Rows. */

enum form { IDLE, COMMAND, SPAN, STEP, SECOND, SETTLED, TAKING, SETTLED_LATER, TAKING_LATER, FORMS };
static const char *const groups[FORMS] = {"a call",
                                          "another command",
                                          "a command over a span",
                                          "a step command",
                                          "a step command, the second of its batch",
                                          "a step by settle: look and taking",
                                          "a step by settle: the taking alone",
                                          "a later step by settle: look and taking",
                                          "a later step by settle: the taking alone"};

struct row {
    enum form form;
    char what[80];
    uint32_t slot, kind;   /* of a step */
    uint32_t code, number; /* as they should be */
    int as_the_step;       /* whether the pool is as a step command by itself leaves it */
    struct call c;
    const struct counts *look;  /* of a taking: the scan before it */
    const struct counts *alone; /* of a taking or a second command: what it does on its pool as the first */
    const struct visits *visits; /* of a command over a span: how often it may read each slot */
    const struct counts *singly; /* of a span that is deleted: what its single deletes do */
};

static struct row rows[300];
static struct call known;
static size_t row_count = 0;

static struct row *new_row(enum form form, const char *what) {
    struct row *row = &rows[row_count++];

    if (row_count >= sizeof rows / sizeof rows[0]) stop("too many rows");
    row->form = form;
    snprintf(row->what, sizeof row->what, "%s", what);
    return row;
}

/* The call around a command: what it touches beyond its audit, or beyond the command before. */
static void idle_row(const struct pool *on, const struct batch *before) {
    struct row *row = new_row(IDLE, "the call around a command, its audit apart");
    const struct call without = call(on, before);

    row->c = idle_call(on, before);
    row->c.touched = less(row->c.touched, without.touched);
    row->code = CHROMATIC_NO_INNER_NODE;
    row->as_the_step = same_pool(row->c.after, without.after);
    row->c.before = without.after;
}

/* Saved sets: C, N, and the nodes, each before its left side and then its right one, so that the root is slot 1 and its left child slot 2. */
#define INNER(weight, router) 2 * (weight) + 1, router
#define LEAF(weight, key) 2 * (weight), key
enum { MOST_BYTES = 2 + 2 * 19 };

/* A step that is accepted. */
struct stepped {
    uint8_t kind, slot, lowest; /* whether no lower kind is allowed there, so that settle takes it */
    uint8_t saved[MOST_BYTES];
    const char *where;
};

static const struct stepped steps[] = {
    {1, 1, 1, {9, 9, INNER(1, 20), INNER(0, 10), LEAF(1, 10), LEAF(1, 20), INNER(0, 30), LEAF(1, 30), INNER(0, 40), LEAF(1, 40), LEAF(1, 50)}, "the root"},
    {1, 2, 1, {13, 13, INNER(1, 50), INNER(1, 20), INNER(0, 10), LEAF(1, 10), LEAF(1, 20), INNER(0, 30), LEAF(1, 30), INNER(0, 40), LEAF(1, 40), LEAF(1, 50), INNER(1, 60), LEAF(1, 60), LEAF(1, 70)}, "below it"},
    {2, 1, 1, {7, 7, INNER(1, 30), INNER(0, 20), INNER(0, 10), LEAF(1, 10), LEAF(1, 20), LEAF(1, 30), LEAF(1, 40)}, "the root"},
    {2, 2, 1, {11, 11, INNER(1, 40), INNER(1, 30), INNER(0, 20), INNER(0, 10), LEAF(1, 10), LEAF(1, 20), LEAF(1, 30), LEAF(1, 40), INNER(1, 50), LEAF(1, 50), LEAF(1, 60)}, "below it"},
    {3, 1, 1, {7, 7, INNER(1, 10), LEAF(1, 10), INNER(0, 20), LEAF(1, 20), INNER(0, 30), LEAF(1, 30), LEAF(1, 40)}, "the root"},
    {3, 2, 1, {11, 11, INNER(1, 40), INNER(1, 10), LEAF(1, 10), INNER(0, 20), LEAF(1, 20), INNER(0, 30), LEAF(1, 30), LEAF(1, 40), INNER(1, 50), LEAF(1, 50), LEAF(1, 60)}, "below it"},
    /* u is the red child, t its red child, a its other child, r the other child of v. */
    {4, 1, 1, {7, 7, INNER(1, 30), INNER(0, 10), LEAF(1, 10), INNER(0, 20), LEAF(1, 20), LEAF(1, 30), LEAF(1, 40)}, "the root, leaves below u and t, r a leaf"},
    {4, 1, 1, {11, 11, INNER(1, 50), INNER(0, 10), LEAF(2, 10), INNER(0, 30), INNER(1, 20), LEAF(1, 20), LEAF(1, 30), INNER(1, 40), LEAF(1, 40), LEAF(1, 50), LEAF(2, 60)}, "the root, inner nodes below t, a and r leaves of weight 2"},
    {4, 1, 1, {11, 11, INNER(1, 50), INNER(0, 10), LEAF(1, 10), INNER(0, 30), INNER(0, 20), LEAF(1, 20), LEAF(1, 30), INNER(0, 40), LEAF(1, 40), LEAF(1, 50), LEAF(1, 60)}, "the root, red nodes below t"},
    {4, 1, 1, {11, 11, INNER(1, 50), INNER(0, 20), INNER(1, 10), LEAF(1, 10), LEAF(1, 20), INNER(0, 30), LEAF(2, 30), LEAF(2, 50), INNER(1, 60), LEAF(1, 60), LEAF(1, 70)}, "the root, a and r inner nodes"},
    {4, 1, 1, {9, 9, INNER(1, 50), INNER(0, 20), LEAF(3, 20), INNER(0, 30), LEAF(3, 30), LEAF(3, 50), INNER(2, 60), LEAF(1, 60), LEAF(1, 70)}, "the root, r an inner node of weight 2"},
    {4, 1, 1, {11, 11, INNER(1, 50), INNER(0, 20), LEAF(2, 20), INNER(0, 30), LEAF(2, 30), LEAF(2, 50), INNER(1, 60), INNER(0, 55), LEAF(1, 55), LEAF(1, 60), LEAF(1, 70)}, "the root, r an inner node over a red one"},
    {4, 1, 0, {9, 9, INNER(1, 40), INNER(0, 20), INNER(0, 10), LEAF(1, 10), LEAF(1, 20), INNER(0, 30), LEAF(1, 30), LEAF(1, 40), LEAF(1, 50)}, "the root, a red too"},
    {4, 2, 1, {11, 11, INNER(1, 40), INNER(1, 30), INNER(0, 10), LEAF(1, 10), INNER(0, 20), LEAF(1, 20), LEAF(1, 30), LEAF(1, 40), INNER(1, 50), LEAF(1, 50), LEAF(1, 60)}, "its left child"},
    {4, 5, 1, {12, 11, INNER(1, 8), INNER(1, 5), LEAF(1, 5), LEAF(1, 8), INNER(1, 30), INNER(0, 10), LEAF(1, 10), INNER(0, 20), LEAF(1, 20), LEAF(1, 30), LEAF(1, 40)}, "its right child, a slot free"},
    {4, 2, 1, {9, 9, INNER(1, 40), INNER(2, 30), INNER(0, 10), LEAF(1, 10), INNER(0, 20), LEAF(1, 20), LEAF(1, 30), LEAF(1, 40), LEAF(3, 50)}, "its left child, of weight 2"},
    {5, 1, 1, {7, 7, INNER(1, 10), LEAF(1, 10), INNER(0, 30), INNER(0, 20), LEAF(1, 20), LEAF(1, 30), LEAF(1, 40)}, "the root, leaves below u and t, r a leaf"},
    {5, 1, 1, {11, 11, INNER(1, 10), LEAF(2, 10), INNER(0, 50), INNER(0, 30), INNER(1, 20), LEAF(1, 20), LEAF(1, 30), INNER(1, 40), LEAF(1, 40), LEAF(1, 50), LEAF(2, 60)}, "the root, inner nodes below t, a and r leaves of weight 2"},
    {5, 1, 1, {11, 11, INNER(1, 10), LEAF(1, 10), INNER(0, 50), INNER(0, 30), INNER(0, 20), LEAF(1, 20), LEAF(1, 30), INNER(0, 40), LEAF(1, 40), LEAF(1, 50), LEAF(1, 60)}, "the root, red nodes below t"},
    {5, 1, 1, {11, 11, INNER(1, 20), INNER(1, 10), LEAF(1, 10), LEAF(1, 20), INNER(0, 50), INNER(0, 30), LEAF(2, 30), LEAF(2, 50), INNER(1, 60), LEAF(1, 60), LEAF(1, 70)}, "the root, a and r inner nodes"},
    {5, 1, 1, {9, 9, INNER(1, 20), INNER(2, 10), LEAF(1, 10), LEAF(1, 20), INNER(0, 40), INNER(0, 30), LEAF(3, 30), LEAF(3, 40), LEAF(3, 50)}, "the root, r an inner node of weight 2"},
    {5, 1, 1, {11, 11, INNER(1, 20), INNER(1, 10), LEAF(1, 10), INNER(0, 15), LEAF(1, 15), LEAF(1, 20), INNER(0, 40), INNER(0, 30), LEAF(2, 30), LEAF(2, 40), LEAF(2, 50)}, "the root, r an inner node over a red one"},
    {5, 1, 0, {9, 9, INNER(1, 10), LEAF(1, 10), INNER(0, 30), INNER(0, 20), LEAF(1, 20), LEAF(1, 30), INNER(0, 40), LEAF(1, 40), LEAF(1, 50)}, "the root, a red too"},
    {5, 2, 1, {11, 11, INNER(1, 40), INNER(1, 10), LEAF(1, 10), INNER(0, 30), INNER(0, 20), LEAF(1, 20), LEAF(1, 30), LEAF(1, 40), INNER(1, 50), LEAF(1, 50), LEAF(1, 60)}, "its left child"},
    {5, 5, 1, {12, 11, INNER(1, 8), INNER(1, 5), LEAF(1, 5), LEAF(1, 8), INNER(1, 10), LEAF(1, 10), INNER(0, 30), INNER(0, 20), LEAF(1, 20), LEAF(1, 30), LEAF(1, 40)}, "its right child, a slot free"},
    {5, 2, 1, {9, 9, INNER(1, 40), INNER(2, 10), LEAF(1, 10), INNER(0, 30), INNER(0, 20), LEAF(1, 20), LEAF(1, 30), LEAF(1, 40), LEAF(3, 50)}, "its left child, of weight 2"},
    {6, 1, 1, {3, 3, INNER(1, 10), LEAF(9, 10), LEAF(9, 20)}, "the root, over leaves"},
    {6, 2, 1, {9, 9, INNER(1, 30), INNER(1, 20), LEAF(2, 20), INNER(1, 25), LEAF(1, 25), LEAF(1, 30), INNER(1, 40), LEAF(2, 40), LEAF(2, 50)}, "below it"},
    {7, 1, 1, {9, 9, INNER(1, 10), LEAF(2, 10), INNER(0, 30), INNER(1, 20), LEAF(1, 20), LEAF(1, 30), INNER(1, 40), LEAF(1, 40), LEAF(1, 50)}, "the root"},
    {7, 2, 1, {13, 13, INNER(1, 50), INNER(1, 10), LEAF(2, 10), INNER(0, 30), INNER(1, 20), LEAF(1, 20), LEAF(1, 30), INNER(1, 40), LEAF(1, 40), LEAF(1, 50), INNER(1, 60), LEAF(2, 60), LEAF(2, 70)}, "below it"},
    {8, 1, 1, {9, 9, INNER(1, 40), INNER(0, 20), INNER(1, 10), LEAF(1, 10), LEAF(1, 20), INNER(1, 30), LEAF(1, 30), LEAF(1, 40), LEAF(2, 50)}, "the root"},
    {8, 2, 1, {13, 13, INNER(1, 50), INNER(1, 40), INNER(0, 20), INNER(1, 10), LEAF(1, 10), LEAF(1, 20), INNER(1, 30), LEAF(1, 30), LEAF(1, 40), LEAF(2, 50), INNER(1, 60), LEAF(2, 60), LEAF(2, 70)}, "below it"},
};

static size_t saved_bytes(const uint8_t *saved) {
    return 2 + 2 * (size_t)saved[1];
}

static uint32_t renamed(uint32_t slot, uint32_t a, uint32_t b) {
    return slot == a ? b : slot == b ? a : slot;
}

/* The same tree with two slots exchanged. */
static const struct pool *exchanged(const struct pool *from, uint32_t a, uint32_t b) {
    struct pool *to = new_pool(from->words);

    memcpy(to->word, from->word, from->words * sizeof from->word[0]);
    to->word[ROOT] = renamed(from->word[ROOT], a, b);
    to->word[1] = renamed(from->word[1], a, b);
    for (uint32_t slot = 1; slot < from->words / SLOT; slot++) {
        const uint32_t *old = &from->word[SLOT * slot];
        uint32_t *new = &to->word[SLOT * renamed(slot, a, b)];
        new[KEY] = old[KEY];
        new[LEFT] = renamed(old[LEFT], a, b);
        new[RIGHT] = renamed(old[RIGHT], a, b);
        new[WEIGHT] = old[WEIGHT];
    }
    return to;
}

/* `at` is the pool on which the step should be taken. */
static struct row *step_row(enum form form, const struct pool *at, uint32_t slot, uint32_t kind, const char *where, const struct call *c) {
    const struct batch alone = then_step(&none, slot, kind);
    const struct call step = call(at, &alone);
    char what[80];
    struct row *row;

    snprintf(what, sizeof what, "kind %" PRIu32 ": %s", kind, where);
    row = new_row(form, what);
    row->slot = slot;
    row->kind = row->number = kind;
    row->c = *c;
    row->as_the_step = step.code == CHROMATIC_GOOD && same_pool(c->before, at) && same_pool(c->after, step.after);
    return row;
}

/* By a command, after what is before it in the batch. */
static void command_row(const struct pool *on, const struct batch *before, uint32_t slot, uint32_t kind, const char *where) {
    const uint8_t command[] = {CHROMATIC_STEP, (uint8_t)slot, (uint8_t)kind};
    const struct call without = call(on, before), c = own(on, before, command, sizeof command);
    struct row *row = step_row(before->commands == 0 ? STEP : SECOND, without.after, slot, kind, where, &c);

    if (row->form == SECOND) row->alone = own(without.after, &none, command, sizeof command).touched;
}

/* By settle, after what is before it in the batch: the step that is its `turn`th. */
static void settle_rows(const struct pool *on, const struct batch *before, uint32_t turn, const struct pool *at, uint32_t slot, uint32_t kind,
                        const char *where) {
    const int first = turn == 1 && before->commands == 0;
    const struct call steps_before = settle(on, before, turn - 1), look = first ? steps_before : settle(at, &none, 0), whole = settle(on, before, turn),
                      alone = first ? whole : settle(at, &none, 1), scan_after = settle(whole.after, &none, 0);
    struct call taking = whole;

    taking.before = steps_before.after;
    taking.touched = less(less(whole.touched, steps_before.touched), scan_after.touched);
    for (int with_look = slot == 1; with_look >= 0; with_look--) {
        const enum form form = with_look ? (turn == 1 ? SETTLED : SETTLED_LATER) : (turn == 1 ? TAKING : TAKING_LATER);
        struct row *row = step_row(form, at, slot, kind, where, &taking);
        row->code = whole.code == CHROMATIC_BUDGET_SPENT ? CHROMATIC_BUDGET_SPENT : CHROMATIC_GOOD; /* as more steps are left or not */
        row->number = turn;
        row->look = look.touched;
        if (with_look) {
            row->c.touched = plus(taking.touched, look.touched);
        } else {
            row->alone = less(less(alone.touched, look.touched), scan_after.touched);
        }
    }
}

static void step_rows(const struct stepped *step) {
    const struct pool *pool = loaded(step->saved, saved_bytes(step->saved)), *from_slot_1 = exchanged(pool, step->slot, 1);

    idle_row(pool, &none);
    command_row(pool, &none, step->slot, step->kind, step->where);
    if (step->lowest) settle_rows(from_slot_1, &none, 1, from_slot_1, 1, step->kind, step->where);
}

/* A step that is accepted after another command: after a step that settle takes first, or after an insert, which settle follows in the batch. */
struct second {
    uint8_t kind, slot, from_slot_1; /* whether it is so with v in slot 1 too */
    uint8_t first_bytes, first[3], saved[MOST_BYTES];
    const char *where;
};

static const struct second seconds[] = {
    {4, 1, 1, 3, {CHROMATIC_STEP, 6, 1}, {17, 17, INNER(1, 80), INNER(0, 20), INNER(1, 10), LEAF(1, 10), LEAF(1, 20), INNER(1, 50), INNER(0, 40), INNER(0, 30), LEAF(1, 30), LEAF(1, 40), LEAF(1, 50), INNER(0, 60), LEAF(1, 60), LEAF(1, 80), INNER(1, 90), LEAF(1, 90), LEAF(1, 100)}, "the root, after kind 1 at t"},
    {4, 1, 1, 3, {CHROMATIC_STEP, 1, 6}, {7, 7, INNER(1, 30), INNER(1, 10), LEAF(1, 10), INNER(0, 20), LEAF(1, 20), LEAF(1, 30), LEAF(2, 40)}, "the root, after kind 6 at the root"},
    {4, 2, 1, 3, {CHROMATIC_STEP, 1, 1}, {11, 11, INNER(1, 40), INNER(0, 30), INNER(0, 10), LEAF(1, 10), INNER(0, 20), LEAF(1, 20), LEAF(1, 30), LEAF(1, 40), INNER(0, 50), LEAF(1, 50), LEAF(1, 60)}, "its left child, after kind 1 at the root"},
    {4, 5, 1, 3, {CHROMATIC_STEP, 1, 1}, {13, 11, INNER(1, 20), INNER(0, 10), LEAF(1, 10), LEAF(1, 20), INNER(0, 50), INNER(0, 30), LEAF(1, 30), INNER(0, 40), LEAF(1, 40), LEAF(1, 50), LEAF(1, 60)}, "its right child, after kind 1 at the root, slots free"},
    {4, 9, 0, 3, {CHROMATIC_STEP, 2, 5}, {15, 15, INNER(1, 40), INNER(1, 10), LEAF(1, 10), INNER(0, 30), INNER(0, 20), LEAF(1, 20), LEAF(1, 30), LEAF(1, 40), INNER(1, 70), INNER(0, 50), LEAF(1, 50), INNER(0, 60), LEAF(1, 60), LEAF(1, 70), LEAF(1, 80)}, "its right child, slot 9, after kind 5 at its left one"},
    {4, 9, 0, 3, {CHROMATIC_STEP, 2, 2}, {15, 15, INNER(1, 40), INNER(1, 30), INNER(0, 20), INNER(0, 10), LEAF(1, 10), LEAF(1, 20), LEAF(1, 30), LEAF(1, 40), INNER(1, 70), INNER(0, 50), LEAF(1, 50), INNER(0, 60), LEAF(1, 60), LEAF(1, 70), LEAF(1, 80)}, "its right child, slot 9, after kind 2 at its left one"},
    {4, 11, 0, 3, {CHROMATIC_STEP, 2, 7}, {19, 19, INNER(1, 50), INNER(1, 10), LEAF(2, 10), INNER(0, 30), INNER(1, 20), LEAF(1, 20), LEAF(1, 30), INNER(1, 40), LEAF(1, 40), LEAF(1, 50), INNER(1, 80), INNER(0, 60), LEAF(2, 60), INNER(0, 70), LEAF(2, 70), LEAF(2, 80), INNER(1, 90), LEAF(1, 90), LEAF(1, 100)}, "its right child, slot 11, after kind 7 at its left one"},
    {4, 1, 1, 2, {CHROMATIC_INSERT, 20}, {7, 5, INNER(1, 30), INNER(0, 10), LEAF(1, 10), LEAF(1, 30), LEAF(1, 40)}, "the root, after the insert that makes t"},
    {4, 2, 1, 2, {CHROMATIC_INSERT, 55}, {13, 11, INNER(1, 40), INNER(1, 30), INNER(0, 10), LEAF(1, 10), INNER(0, 20), LEAF(1, 20), LEAF(1, 30), LEAF(1, 40), INNER(1, 50), LEAF(1, 50), LEAF(1, 60)}, "its left child, after an insert elsewhere"},
    {5, 1, 1, 3, {CHROMATIC_STEP, 6, 1}, {17, 17, INNER(1, 20), INNER(1, 10), LEAF(1, 10), LEAF(1, 20), INNER(0, 80), INNER(1, 50), INNER(0, 30), LEAF(1, 30), LEAF(1, 50), INNER(0, 60), LEAF(1, 60), INNER(0, 70), LEAF(1, 70), LEAF(1, 80), INNER(1, 90), LEAF(1, 90), LEAF(1, 100)}, "the root, after kind 1 at t"},
    {5, 1, 1, 3, {CHROMATIC_STEP, 1, 6}, {7, 7, INNER(1, 10), LEAF(2, 10), INNER(1, 30), INNER(0, 20), LEAF(1, 20), LEAF(1, 30), LEAF(1, 40)}, "the root, after kind 6 at the root"},
    {5, 2, 1, 3, {CHROMATIC_STEP, 1, 1}, {11, 11, INNER(1, 40), INNER(0, 10), LEAF(1, 10), INNER(0, 30), INNER(0, 20), LEAF(1, 20), LEAF(1, 30), LEAF(1, 40), INNER(0, 50), LEAF(1, 50), LEAF(1, 60)}, "its left child, after kind 1 at the root"},
    {5, 5, 1, 3, {CHROMATIC_STEP, 1, 1}, {13, 11, INNER(1, 20), INNER(0, 10), LEAF(1, 10), LEAF(1, 20), INNER(0, 30), LEAF(1, 30), INNER(0, 50), INNER(0, 40), LEAF(1, 40), LEAF(1, 50), LEAF(1, 60)}, "its right child, after kind 1 at the root, slots free"},
    {5, 9, 0, 3, {CHROMATIC_STEP, 2, 4}, {15, 15, INNER(1, 40), INNER(1, 30), INNER(0, 10), LEAF(1, 10), INNER(0, 20), LEAF(1, 20), LEAF(1, 30), LEAF(1, 40), INNER(1, 50), LEAF(1, 50), INNER(0, 70), INNER(0, 60), LEAF(1, 60), LEAF(1, 70), LEAF(1, 80)}, "its right child, slot 9, after kind 4 at its left one"},
    {5, 9, 0, 3, {CHROMATIC_STEP, 2, 3}, {15, 15, INNER(1, 40), INNER(1, 10), LEAF(1, 10), INNER(0, 20), LEAF(1, 20), INNER(0, 30), LEAF(1, 30), LEAF(1, 40), INNER(1, 50), LEAF(1, 50), INNER(0, 70), INNER(0, 60), LEAF(1, 60), LEAF(1, 70), LEAF(1, 80)}, "its right child, slot 9, after kind 3 at its left one"},
    {5, 11, 0, 3, {CHROMATIC_STEP, 2, 8}, {19, 19, INNER(1, 50), INNER(1, 40), INNER(0, 20), INNER(1, 10), LEAF(1, 10), LEAF(1, 20), INNER(1, 30), LEAF(1, 30), LEAF(1, 40), LEAF(2, 50), INNER(1, 70), INNER(1, 60), LEAF(1, 60), LEAF(1, 70), INNER(0, 90), INNER(0, 80), LEAF(2, 80), LEAF(2, 90), LEAF(2, 100)}, "its right child, slot 11, after kind 8 at its left one"},
    {5, 1, 1, 2, {CHROMATIC_INSERT, 20}, {7, 5, INNER(1, 10), LEAF(1, 10), INNER(0, 30), LEAF(1, 30), LEAF(1, 40)}, "the root, after the insert that makes t"},
    {5, 2, 1, 2, {CHROMATIC_INSERT, 55}, {13, 11, INNER(1, 40), INNER(1, 10), LEAF(1, 10), INNER(0, 30), INNER(0, 20), LEAF(1, 20), LEAF(1, 30), LEAF(1, 40), INNER(1, 50), LEAF(1, 50), LEAF(1, 60)}, "its left child, after an insert elsewhere"},
};

static void second_rows(const struct second *second) {
    const int by_settle = second->first[0] == CHROMATIC_STEP;
    const uint32_t slot = second->from_slot_1 ? 1 : second->slot;
    const struct pool *pool = loaded(second->saved, saved_bytes(second->saved)), *moved = exchanged(pool, second->slot, slot);
    const struct batch first = then(&none, second->first, second->first_bytes),
                       moved_first = by_settle ? then_step(&none, renamed(second->first[1], second->slot, slot), second->first[2]) : first;
    const struct call after_first = call(moved, &moved_first);

    idle_row(pool, &first);
    command_row(pool, &first, second->slot, second->kind, second->where);
    settle_rows(moved, by_settle ? &none : &first, by_settle ? 2 : 1, after_first.after, slot, second->kind, second->where);
}

/* A pool of 127 slots and 64 keys: a tree of black nodes over sixteen parts of four keys, in each of which kind 4 or kind 5 is allowed, in turn. */
enum { PARTS = 16, PART_NODES = 7 };
static uint32_t part_slot[PARTS];

static uint32_t part_kind(uint32_t part) {
    return 4 + part % 2;
}

/* The nodes of some parts, the first of them a slot. */
static uint8_t *large_nodes(uint8_t *to, const uint8_t *from, uint32_t part, uint32_t parts) {
    static const uint8_t nodes[2][2 * PART_NODES] = {{INNER(1, 3), INNER(0, 1), LEAF(1, 1), INNER(0, 2), LEAF(1, 2), LEAF(1, 3), LEAF(1, 4)},
                                                     {INNER(1, 1), LEAF(1, 1), INNER(0, 3), INNER(0, 2), LEAF(1, 2), LEAF(1, 3), LEAF(1, 4)}};
    const uint32_t keys_before = 4 * part;

    if (parts > 1) {
        *to++ = 2 * 1 + 1;
        *to++ = (uint8_t)(keys_before + 4 * (parts / 2));
        to = large_nodes(to, from, part, parts / 2);
        return large_nodes(to, from, part + parts / 2, parts / 2);
    }
    part_slot[part] = (uint32_t)(to - from) / 2 + 1;
    for (size_t i = 0; i < 2 * PART_NODES; i += 2) {
        *to++ = nodes[part % 2][i];
        *to++ = (uint8_t)(nodes[part % 2][i + 1] + keys_before);
    }
    return to;
}

/* The last two parts' steps by a command and as settle's first; and of all sixteen that settle takes, from the lowest slot on, the second,
 * the third and the last two. */
static uint8_t large_saved[2 + 2 * MOST_SLOTS] = {MOST_SLOTS, MOST_SLOTS};

static void large_rows(void) {
    const struct pool *pool, *at;
    char where[60];

    if (large_nodes(large_saved + 2, large_saved + 2, 0, PARTS) != large_saved + sizeof large_saved) stop("the large pool has other nodes");
    pool = at = loaded(large_saved, sizeof large_saved);
    idle_row(pool, &none);
    for (uint32_t part = 0; part < PARTS; part++) {
        const uint32_t slot = part_slot[part], kind = part_kind(part);
        const struct batch first = then_step(&none, part_slot[0], part_kind(0)), step = then_step(&none, slot, kind);
        snprintf(where, sizeof where, "127 slots, 64 keys, slot %" PRIu32, slot);
        if (part >= PARTS - 2) {
            const struct pool *from_slot_1 = exchanged(pool, slot, 1);
            command_row(pool, &none, slot, kind, where);
            command_row(pool, &first, slot, kind, where);
            settle_rows(from_slot_1, &none, 1, from_slot_1, 1, kind, where);
        }
        snprintf(where, sizeof where, "127 slots, 64 keys, slot %" PRIu32 ", after %" PRIu32 " of kinds 4 and 5", slot, part);
        if (part == 1 || part == 2 || part >= PARTS - 2) settle_rows(pool, &none, part + 1, at, slot, kind, where);
        at = call(at, &step).after;
    }
}

/* Other commands, and steps that are refused. */
struct asked {
    uint8_t command_bytes, command[3];
    uint32_t code, number;
    const uint8_t *saved;
    const char *what;
};

static const uint8_t empty[] = {7, 0}, one_key[] = {7, 1, LEAF(1, 10)}, two_keys[] = {7, 3, INNER(1, 10), LEAF(1, 10), LEAF(1, 20)},
                     four_keys[] = {8, 7, INNER(1, 20), INNER(1, 10), LEAF(1, 10), LEAF(1, 20), INNER(1, 30), LEAF(1, 30), LEAF(1, 40)},
                     leaf_under_root[] = {7, 5, INNER(1, 10), LEAF(1, 10), INNER(0, 20), LEAF(1, 20), LEAF(1, 30)},
                     red_r[] = {9, 9, INNER(1, 30), INNER(0, 10), LEAF(1, 10), INNER(0, 20), LEAF(1, 20), LEAF(1, 30), INNER(0, 40), LEAF(1, 40), LEAF(1, 50)},
                     black_t[] = {7, 7, INNER(1, 30), INNER(0, 10), LEAF(2, 10), INNER(1, 20), LEAF(1, 20), LEAF(1, 30), LEAF(2, 40)};
/* 01's P8: L is 255, and a leaf's first number takes two bytes. */
static const uint8_t tall[] = {9, 9, 3, 3, 1, 2, 1, 1, 0xFE, 3, 1, 0xFE, 3, 2, 0xFE, 3, 3, 1, 4, 0xFE, 3, 4, 0xFE, 3, 5};

static const struct asked asked[] = {
    {3, {CHROMATIC_STEP, 0, 4}, CHROMATIC_NO_INNER_NODE, 0, four_keys, "step, refused with 8: slot 0"},
    {3, {CHROMATIC_STEP, 3, 4}, CHROMATIC_NO_INNER_NODE, 0, four_keys, "step, refused with 8: a leaf"},
    {3, {CHROMATIC_STEP, 8, 4}, CHROMATIC_NO_INNER_NODE, 0, four_keys, "step, refused with 8: a free slot"},
    {3, {CHROMATIC_STEP, 1, 9}, CHROMATIC_NO_KIND, 0, four_keys, "step, refused with 9: kind 9"},
    {3, {CHROMATIC_STEP, 1, 4}, CHROMATIC_CONDITION_FALSE, 0, four_keys, "step, refused with 10: kind 4, u black"},
    {3, {CHROMATIC_STEP, 1, 4}, CHROMATIC_CONDITION_FALSE, 0, two_keys, "step, refused with 10: kind 4, over leaves"},
    {3, {CHROMATIC_STEP, 1, 4}, CHROMATIC_CONDITION_FALSE, 0, black_t, "step, refused with 10: kind 4, t black"},
    {3, {CHROMATIC_STEP, 1, 4}, CHROMATIC_CONDITION_FALSE, 0, red_r, "step, refused with 10: kind 4, r red"},
    {3, {CHROMATIC_STEP, 1, 5}, CHROMATIC_CONDITION_FALSE, 0, black_t, "step, refused with 10: kind 5, u a leaf"},
    {3, {CHROMATIC_STEP, 1, 1}, CHROMATIC_TOO_TALL, 0, tall, "step, refused with 11: kind 1 at the root, L 255"},
    {2, {CHROMATIC_SEARCH, 40}, CHROMATIC_GOOD, 7, four_keys, "search, found two below the root"},
    {2, {CHROMATIC_SEARCH, 35}, CHROMATIC_KEY_ABSENT, 0, four_keys, "search, absent"},
    {2, {CHROMATIC_INSERT, 10}, CHROMATIC_GOOD, 1, empty, "insert, the first key"},
    {2, {CHROMATIC_INSERT, 20}, CHROMATIC_GOOD, 3, one_key, "insert, the second key"},
    {2, {CHROMATIC_INSERT, 30}, CHROMATIC_GOOD, 5, two_keys, "insert, the third key"},
    {2, {CHROMATIC_INSERT, 20}, CHROMATIC_KEY_PRESENT, 0, two_keys, "insert, refused with 5"},
    {2, {CHROMATIC_INSERT, 35}, CHROMATIC_NO_ROOM, 0, four_keys, "insert, refused with 7"},
    {2, {CHROMATIC_DELETE, 10}, CHROMATIC_GOOD, 0, one_key, "delete, the last key"},
    {2, {CHROMATIC_DELETE, 10}, CHROMATIC_GOOD, 2, leaf_under_root, "delete, right under the root"},
    {2, {CHROMATIC_DELETE, 40}, CHROMATIC_GOOD, 3, four_keys, "delete, two below the root"},
    {2, {CHROMATIC_DELETE, 35}, CHROMATIC_KEY_ABSENT, 0, four_keys, "delete, refused with 6"},
    {2, {CHROMATIC_SETTLE, 9}, CHROMATIC_GOOD, 0, four_keys, "settle, nothing to do, three inner nodes of eight slots"},
};

/* How often each slot may be read. */
struct visits {
    int32_t slot[MOST_SLOTS + 1];
};

static struct visits *new_visits(void) {
    struct visits *visits = calloc(1, sizeof *visits);

    if (!visits) stop("there is no memory");
    return visits;
}

static const uint32_t *slot_words(const struct pool *on, uint32_t slot) {
    return &on->word[SLOT * slot];
}

/* The way of a search from a slot on: each slot once, and the leaf where it ends. That leaf, and where the last turn to the left could have gone. */
static uint32_t add_way(struct visits *visits, const struct pool *on, uint32_t slot, uint32_t key, uint32_t *beside) {
    for (;;) {
        const uint32_t *word = slot_words(on, slot);
        visits->slot[slot]++;
        if (word[LEFT] == 0) return slot;
        if (key <= word[KEY]) *beside = word[RIGHT];
        slot = key <= word[KEY] ? word[LEFT] : word[RIGHT];
    }
}

/* A way, with its leaf twice. */
static uint32_t add_search(struct visits *visits, const struct pool *on, uint32_t slot, uint32_t key, uint32_t *beside) {
    const uint32_t leaf = add_way(visits, on, slot, key, beside);

    visits->slot[leaf]++;
    return leaf;
}

/* The smallest key at or above one: its leaf, or 0. */
static uint32_t add_next(struct visits *visits, const struct pool *on, uint32_t key) {
    uint32_t beside = 0, leaf;

    if (on->word[ROOT] == 0) return 0;
    leaf = add_search(visits, on, on->word[ROOT], key, &beside);
    if (slot_words(on, leaf)[KEY] >= key) return leaf;
    return beside == 0 ? 0 : add_search(visits, on, beside, key, &beside);
}

/* A delete: its way, and the slots that it writes. */
static void add_delete(struct visits *visits, const struct pool *on, uint32_t key) {
    uint32_t beside = 0;
    const uint32_t leaf = add_search(visits, on, on->word[ROOT], key, &beside);

    visits->slot[leaf]++;
    for (uint32_t slot = 1; slot < on->words / SLOT; slot++) {
        const uint32_t *word = slot_words(on, slot);
        if (word[WEIGHT] == UINT32_MAX || word[LEFT] == 0 || (word[LEFT] != leaf && word[RIGHT] != leaf)) continue;
        visits->slot[slot]++;
        visits->slot[word[LEFT] == leaf ? word[RIGHT] : word[LEFT]]++;
    }
}

static int is_key_within(const uint32_t *word, uint32_t first, uint32_t last) {
    return word[WEIGHT] != UINT32_MAX && word[LEFT] == 0 && first <= word[KEY] && word[KEY] <= last;
}

static uint32_t keys_within(const struct pool *on, uint32_t first, uint32_t last) {
    uint32_t keys = 0;

    for (uint32_t slot = 1; slot < on->words / SLOT; slot++) keys += (uint32_t)is_key_within(slot_words(on, slot), first, last);
    return keys;
}

/* A count: the slots on the ways to the first, to the last and to every key between them, each once; where the first is above the last, those
 * on both ways. */
static void add_count(struct visits *visits, const struct pool *on, uint32_t first, uint32_t last) {
    struct visits *to_first = new_visits(), *to_last = new_visits(), *between = new_visits();
    uint32_t beside = 0;

    if (on->word[ROOT] != 0) {
        add_way(to_first, on, on->word[ROOT], first, &beside);
        add_way(to_last, on, on->word[ROOT], last, &beside);
    }
    for (uint32_t slot = 1; slot < on->words / SLOT; slot++) {
        const uint32_t *word = slot_words(on, slot);
        if (is_key_within(word, first, last)) add_way(between, on, on->word[ROOT], word[KEY], &beside);
    }
    for (uint32_t slot = 1; slot <= MOST_SLOTS; slot++) {
        const int a = to_first->slot[slot] > 0, b = to_last->slot[slot] > 0;
        visits->slot[slot] = first <= last ? a || b || between->slot[slot] > 0 : a && b;
    }
    free(to_first);
    free(to_last);
    free(between);
}

/* A span, or a key by which 6 is asked. */
struct spanned {
    uint8_t operation, first, last;
    const char *what;
};

static size_t span_command(uint8_t *command, const struct spanned *a) {
    command[0] = a->operation;
    command[1] = a->first;
    command[2] = a->last;
    return a->operation == CHROMATIC_AT_OR_ABOVE ? 2 : 3;
}

/* The single deletes: how often they may read each slot, with the search for each key, and what they do. The pool that they leave. */
static const struct pool *delete_singly(const struct pool *on, const struct spanned *a, struct visits *visits, const struct counts **singly) {
    uint32_t from = a->first;

    *singly = new_counts();
    while (from <= a->last) {
        const uint32_t leaf = add_next(visits, on, from), key = slot_words(on, leaf)[KEY];
        const uint8_t command[] = {CHROMATIC_DELETE, (uint8_t)key};
        struct call one;
        if (leaf == 0 || key > a->last) break;
        add_delete(visits, on, key);
        one = own(on, &none, command, sizeof command);
        *singly = plus(*singly, one.touched);
        on = one.after;
        from = key + 1;
    }
    return on;
}

static void span_row(const struct pool *pool, const struct spanned *a, const char *where) {
    struct visits *visits = new_visits();
    uint8_t command[3];
    const size_t bytes = span_command(command, a);
    const struct pool *after = pool;
    const struct counts *singly = NULL;
    char what[80];
    struct row *row;
    uint32_t leaf;

    snprintf(what, sizeof what, "%s, %s", a->what, where);
    row = new_row(SPAN, what);
    row->number = keys_within(pool, a->first, a->last);
    switch (a->operation) {
    case CHROMATIC_AT_OR_ABOVE:
        leaf = add_next(visits, pool, a->first);
        row->code = leaf == 0 ? CHROMATIC_KEY_ABSENT : CHROMATIC_GOOD;
        row->number = leaf == 0 ? 0 : slot_words(pool, leaf)[KEY];
        break;
    case CHROMATIC_COUNT: add_count(visits, pool, a->first, a->last); break;
    default: after = delete_singly(pool, a, visits, &singly); break;
    }
    row->kind = a->operation;
    row->visits = visits;
    row->singly = singly;
    row->c = own(pool, &none, command, bytes);
    row->as_the_step = same_pool(row->c.after, after);
}

/* In a set of four keys with a gap between 20 and the router 25, in an empty one, and in the one of 64 keys. */
static const uint8_t gap_keys[] = {8, 7, INNER(1, 25), INNER(1, 10), LEAF(1, 10), LEAF(1, 20), INNER(1, 30), LEAF(1, 30), LEAF(1, 40)};

static const struct spanned few_keys[] = {
    {CHROMATIC_AT_OR_ABOVE, 40, 0, "at_or_above, the key itself"},
    {CHROMATIC_AT_OR_ABOVE, 0, 0, "at_or_above, the smallest key"},
    {CHROMATIC_AT_OR_ABOVE, 22, 0, "at_or_above, by two ways"},
    {CHROMATIC_AT_OR_ABOVE, 41, 0, "at_or_above, refused with 6"},
    {CHROMATIC_COUNT, 0, 127, "count, all four"},
    {CHROMATIC_COUNT, 20, 30, "count, two"},
    {CHROMATIC_COUNT, 30, 30, "count, one"},
    {CHROMATIC_COUNT, 21, 29, "count, none"},
    {CHROMATIC_COUNT, 41, 127, "count, none, above all"},
    {CHROMATIC_COUNT, 40, 10, "count, the first above the last"},
    {CHROMATIC_COUNT, 12, 11, "count, the first just above the last"},
    {CHROMATIC_DELETE_SPAN, 0, 127, "delete_span, all four"},
    {CHROMATIC_DELETE_SPAN, 20, 30, "delete_span, two"},
    {CHROMATIC_DELETE_SPAN, 40, 40, "delete_span, one"},
    {CHROMATIC_DELETE_SPAN, 21, 29, "delete_span, none"},
    {CHROMATIC_DELETE_SPAN, 40, 10, "delete_span, the first above the last"},
}, no_keys[] = {
    {CHROMATIC_AT_OR_ABOVE, 0, 0, "at_or_above, refused with 6"},
    {CHROMATIC_COUNT, 0, 127, "count, none"},
    {CHROMATIC_DELETE_SPAN, 0, 127, "delete_span, none"},
}, many_keys[] = {
    {CHROMATIC_AT_OR_ABOVE, 1, 0, "at_or_above, the first"},
    {CHROMATIC_AT_OR_ABOVE, 33, 0, "at_or_above, the middle"},
    {CHROMATIC_AT_OR_ABOVE, 64, 0, "at_or_above, the last"},
    {CHROMATIC_AT_OR_ABOVE, 65, 0, "at_or_above, refused with 6"},
    {CHROMATIC_COUNT, 1, 64, "count, 64"},
    {CHROMATIC_COUNT, 17, 32, "count, 16"},
    {CHROMATIC_COUNT, 30, 45, "count, 16 across the middle"},
    {CHROMATIC_COUNT, 32, 33, "count, two at the middle"},
    {CHROMATIC_COUNT, 5, 5, "count, one"},
    {CHROMATIC_COUNT, 65, 127, "count, none, above all"},
    {CHROMATIC_COUNT, 33, 32, "count, the first above the last"},
    {CHROMATIC_DELETE_SPAN, 5, 5, "delete_span, one"},
    {CHROMATIC_DELETE_SPAN, 17, 32, "delete_span, 16"},
    {CHROMATIC_DELETE_SPAN, 30, 45, "delete_span, 16 across the middle"},
    {CHROMATIC_DELETE_SPAN, 1, 64, "delete_span, 64"},
};

static void span_rows(void) {
    const struct pool *few = loaded(gap_keys, sizeof gap_keys), *no = loaded(empty, sizeof empty), *many = loaded(large_saved, sizeof large_saved);

    for (size_t i = 0; i < sizeof few_keys / sizeof few_keys[0]; i++) span_row(few, &few_keys[i], "of 4 keys");
    for (size_t i = 0; i < sizeof no_keys / sizeof no_keys[0]; i++) span_row(no, &no_keys[i], "of an empty set");
    for (size_t i = 0; i < sizeof many_keys / sizeof many_keys[0]; i++) span_row(many, &many_keys[i], "of 64 keys");
}

static void asked_row(const struct asked *a) {
    const struct pool *pool = loaded(a->saved, a->saved == tall ? sizeof tall : saved_bytes(a->saved));
    struct row *row = new_row(COMMAND, a->what);

    row->code = a->code;
    row->number = a->number;
    row->as_the_step = 1;
    row->c = own(pool, &none, a->command, a->command_bytes);
}

/* The table. */

static void print_word(size_t word, int32_t times) {
    static const char *const header[] = {"root", "first free", "N", "L"}, *const slot[] = {"key", "left", "right", "weight"};

    if (word < HEADER) {
        printf(" header %s", header[word]);
    } else {
        printf(" slot %zu %s", word / SLOT, slot[word % SLOT]);
    }
    if (times != 1) printf(" (%" PRId32 " times)", times);
}

static void print_words(const char *what, const int32_t *times) {
    const char *between = "";

    for (size_t word = 0; word < MOST_WORDS; word++) {
        if (times[word] == 0) continue;
        if (between[0] == '\0') printf("    %s:", what);
        printf("%s", between);
        print_word(word, times[word]);
        between = ",";
    }
    if (between[0] != '\0') putchar('\n');
}

struct sum {
    int32_t all, words, most, header;
};

static struct sum summed(const int32_t *times) {
    struct sum sum = {0, 0, 0, 0};

    for (size_t word = 0; word < MOST_WORDS; word++) {
        sum.all += times[word];
        sum.words += times[word] != 0;
        sum.header += word < HEADER && times[word] != 0;
        if (times[word] > sum.most) sum.most = times[word];
    }
    return sum;
}

static int changed(const struct call *c, size_t word) {
    return c->before->word[word] != c->after->word[word];
}

static void print_row(const struct row *row) {
    const struct counts *touched = row->c.touched;
    const struct sum reads = summed(touched->reads), writes = summed(touched->writes);
    int others = 0;

    for (size_t word = 0; word < MOST_WORDS; word++) others += touched->writes[word] != 0 && changed(&row->c, word);
    printf("%-66s %6" PRId32 " %6" PRId32 " %6" PRId32 "  %6" PRId32 " %6" PRId32 " %8d  %9" PRId32 " %9" PRId32 "\n", row->what, reads.all, reads.words, reads.most,
           writes.all, writes.words, others, reads.header, writes.header);
    if (each_word) {
        print_words("read", touched->reads);
        print_words("written", touched->writes);
    }
}

static void print_form(enum form form) {
    printf("\n%-66s %6s %6s %6s  %6s %6s %8s  %9s %9s\n", groups[form], "reads", "words", "most", "writes", "words", "changed", "header, r", "header, w");
    for (size_t i = 0; i < row_count; i++) {
        if (rows[i].form != form) continue;
        print_row(&rows[i]);
        if (form == IDLE) return; /* the first of many; the verdict is over all */
    }
}

/* Verdicts. */

static void verdict(int holds, const char *what) {
    passed += holds;
    failed += !holds;
    printf("%s: %s\n", holds ? "passed" : "FAILED", what);
}

/* Of a row: passed if no word is bad, else these are named, with how often they were touched. */
static void no_word(const struct row *row, const int *bad, const int32_t *times, const char *what) {
    const char *between = "";

    for (size_t word = 0; word < MOST_WORDS; word++) {
        if (!bad[word]) continue;
        if (between[0] == '\0') printf("FAILED: %s, %s: %s:", groups[row->form], row->what, what);
        printf("%s", between);
        print_word(word, times[word]);
        between = ",";
    }
    if (between[0] != '\0') putchar('\n');
    failed += between[0] != '\0';
    passed += between[0] == '\0';
}

/* v's router and its child away from u; u's child that held t; t's router and both children. */
static void six_words(const struct row *row, int *six) {
    const uint32_t *word = row->c.before->word;
    const size_t side = row->kind == 4 ? LEFT : RIGHT, away = LEFT + RIGHT - side;
    const size_t v = SLOT * (size_t)row->slot, u = SLOT * (size_t)word[v + side], t = SLOT * (size_t)word[u + away];

    six[v + KEY] = six[v + away] = six[u + away] = six[t + KEY] = six[t + LEFT] = six[t + RIGHT] = 1;
}

static int is_taking(enum form form) {
    return form == TAKING || form == TAKING_LATER;
}

static void judge_row(const struct row *row) {
    const struct counts *touched = row->c.touched;
    const int taking = is_taking(row->form);
    int six[MOST_WORDS] = {0}, again[MOST_WORDS] = {0}, not_once[MOST_WORDS] = {0}, same[MOST_WORDS] = {0}, other[MOST_WORDS] = {0}, read[MOST_WORDS] = {0},
        written[MOST_WORDS] = {0};

    six_words(row, six);
    for (size_t word = 0; word < MOST_WORDS; word++) {
        again[word] = word >= HEADER && touched->reads[word] > 0 && touched->reads[word] + (taking ? row->look->reads[word] : 0) > 1;
        not_once[word] = six[word] && touched->writes[word] != 1;
        same[word] = six[word] && !changed(&row->c, word);
        other[word] = word >= HEADER && !six[word] && touched->writes[word] != 0;
        read[word] = word < HEADER && touched->reads[word] != 0;
        written[word] = word < HEADER && touched->writes[word] != 0;
    }
    no_word(row, again, touched->reads, taking ? "read again after the look" : "read more than once");
    no_word(row, read, touched->reads, "read of the header");
    no_word(row, not_once, touched->writes, "of the six words, not written once");
    no_word(row, same, touched->writes, "of the six words, with the value that it had");
    no_word(row, other, touched->writes, "written, and none of the six words");
    no_word(row, written, touched->writes, "written of the header");
}

static void judge_kind(enum form form, uint32_t kind) {
    const int failed_before = failed;
    int pools = 0, reads = 0;

    for (size_t i = 0; i < row_count; i++) {
        if (rows[i].form != form || rows[i].kind != kind) continue;
        judge_row(&rows[i]);
        reads += summed(rows[i].c.touched->reads).all;
        pools++;
    }
    if (pools == 0) stop("a kind without a pool");
    if (failed > failed_before) return;
    printf("passed: %s, kind %" PRIu32 ", %d pools: ", groups[form], kind, pools);
    printf("%s; ", reads == 0 ? "no word read" : is_taking(form) ? "no word read again" : "each word read once at most");
    puts("the six words written, each once and with another value; no other word; no header word");
}

/* Of a command over a span. */
static void judge_span(const struct row *row) {
    const struct counts *touched = row->c.touched;
    const int deletes = row->kind == CHROMATIC_DELETE_SPAN;
    int often[MOST_WORDS] = {0}, missed[MOST_WORDS] = {0}, header[MOST_WORDS] = {0}, written[MOST_WORDS] = {0};

    for (size_t word = 0; word < MOST_WORDS; word++) {
        header[word] = word < HEADER && !deletes && touched->reads[word] > (word == ROOT);
        written[word] = touched->writes[word] > (deletes ? row->singly->writes[word] : 0);
        if (word < HEADER) continue;
        often[word] = touched->reads[word] > row->visits->slot[word / SLOT];
        if (row->kind == CHROMATIC_COUNT && word % SLOT == KEY && row->visits->slot[word / SLOT] > 0) missed[word] = touched->reads[word] == 0;
    }
    no_word(row, often, touched->reads, "read more often than on the ways to the span and in it");
    no_word(row, missed, touched->reads, "not read, and on the way to the span or in it");
    no_word(row, header, touched->reads, "read of the header, and not the root once");
    no_word(row, written, touched->writes, deletes ? "written more often than by single deletes" : "written");
}

static void judge_spans(void) {
    static const char *const holds[] = {"one way is read, or two; nothing is written",
                                        "the slots on the ways to both ends and to every key between are read, each once, and no other; nothing is written",
                                        "for each key no more is read than by its next one and a delete, and no more written than by single deletes"};

    for (uint32_t operation = CHROMATIC_AT_OR_ABOVE; operation <= CHROMATIC_DELETE_SPAN; operation++) {
        const int failed_before = failed;
        int pools = 0;
        for (size_t i = 0; i < row_count; i++) {
            if (rows[i].form != SPAN || rows[i].kind != operation) continue;
            judge_span(&rows[i]);
            pools++;
        }
        if (pools == 0) stop("an operation over a span without a pool");
        if (failed == failed_before) printf("passed: %s, operation %" PRIu32 ", %d of them: %s\n", groups[SPAN], operation, pools, holds[operation - CHROMATIC_AT_OR_ABOVE]);
    }
}

static int known_are_counted(void) {
    const struct counts want = {.reads = {[5] = 2, [6] = 1, [7] = 1, [13] = 1, [14] = 1}, .writes = {[8] = 1, [9] = 1, [11] = 1, [13] = 1}};

    return memcmp(known.touched, &want, sizeof want) == 0;
}

/* The header alone is read beyond the audit, and nothing is written. */
static int idle_is_idle(const struct row *row) {
    const struct sum reads = summed(row->c.touched->reads), writes = summed(row->c.touched->writes);

    return reads.words == reads.header && writes.words == 0;
}

static int no_less(const struct counts *touched) {
    for (size_t word = 0; word < MOST_WORDS; word++) {
        if (touched->reads[word] < 0 || touched->writes[word] < 0) return 0;
    }
    return 1;
}

static int written_where_changed(const struct call *c) {
    for (size_t word = 0; word < MOST_WORDS; word++) {
        if (changed(c, word) && c->touched->writes[word] == 0) return 0;
    }
    return 1;
}

static int as_the_first(const struct row *row) {
    if (!row->alone || memcmp(row->alone, row->c.touched, sizeof *row->alone) == 0) return 1;
    printf("%s, %s: touches words otherwise than as the first\n", groups[row->form], row->what);
    return 0;
}

static void judge_rows(void) {
    int idle = 1, answers = 1, counts = 1, first = 1;

    for (size_t i = 0; i < row_count; i++) {
        const struct row *row = &rows[i];
        const int answered = row->c.code == row->code && row->c.number == row->number && row->as_the_step;
        if (!answered) printf("%s, %s: answered %" PRIu32 " %" PRIu32 "\n", groups[row->form], row->what, row->c.code, row->c.number);
        answers &= answered;
        counts &= no_less(row->c.touched) && written_where_changed(&row->c);
        first &= as_the_first(row);
        if (row->form == IDLE) idle &= idle_is_idle(row);
    }
    verdict(known_are_counted(), "accesses that are known are counted so");
    verdict(idle, "the call around a command, first or second, touches no slot beyond what it does without, and writes nothing");
    verdict(answers, "every command is answered as it should, and settle, or a second command, takes the same step");
    verdict(counts, "no count is below 0, and every word that changed was written");
    verdict(first, "a later step by settle, or a second command, touches each word as often as it does as the first on that pool");
}

static void perform_or_count(void) {
    static const struct pool no_pool = {0, {0}};

    known = call(&no_pool, &none);
    for (size_t i = 0; i < sizeof steps / sizeof steps[0]; i++) step_rows(&steps[i]);
    for (size_t i = 0; i < sizeof seconds / sizeof seconds[0]; i++) second_rows(&seconds[i]);
    large_rows();
    for (size_t i = 0; i < sizeof asked / sizeof asked[0]; i++) asked_row(&asked[i]);
    span_rows();
}

static void print_all(void) {
    static const enum form printed[] = {IDLE, STEP, SECOND, SETTLED, TAKING, SETTLED_LATER, TAKING_LATER, COMMAND, SPAN};

    puts("Columns: reads, of how many words, how often the word that is read most; writes, to how many words, how many of these have another");
    puts("value than before; words of the header that are read, and written. v is the node of the step, u its red child, t u's red child, a u's");
    puts("other child, r v's.");
    for (size_t i = 0; i < sizeof printed / sizeof printed[0]; i++) print_form(printed[i]);
    putchar('\n');
    judge_rows();
    for (enum form form = STEP; form < FORMS; form++) {
        for (uint32_t kind = 4; kind <= 5; kind++) judge_kind(form, kind);
    }
    judge_spans();
    printf("%d passed, %d failed\n", passed, failed);
}

int main(int words, char **word) {
    counting = words >= 4 && strcmp(word[1], "count") == 0;
    each_word = words == 5 && strcmp(word[4], "--words") == 0;
    if (!counting && !(words == 2 && strcmp(word[1], "perform") == 0)) stop("usage: accesses perform | accesses count LOG TRACE [--words]");
    if (counting) {
        log_file = fopen(word[2], "rb");
        trace = fopen(word[3], "r");
        if (!log_file || !trace) stop("the log or the trace cannot be opened");
    }
    lent_at = (uint64_t)(uintptr_t)&lent;
    mark_at = (uint64_t)(uintptr_t)&mark;
    kept(&lent_at, sizeof lent_at);
    kept(&mark_at, sizeof mark_at);
    perform_or_count();
    if (!counting) return fflush(stdout) == 0 ? 0 : 2;
    print_all();
    return failed == 0 && passed > 0 ? 0 : 1;
}
