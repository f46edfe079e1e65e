/* The set of marks for C and C++ hosts: libchromatic.a. Each function answers for every input and allocates nothing.
 * A pool is 4 + 4C words, C from 1 to 16,383. C slots hold (C+1)/2 keys: 127 slots hold 64 keys. The fourth word is L, the report's
 * CHROMATIC_LEVEL. Under interface 5 and before it was 0: such a pool with two keys or more is refused with CHROMATIC_RULES_BROKEN. Save
 * it with an archive of interface 5, which takes those from before it too, and load the bytes with this one; to prepare it would forget
 * every mark.
 * A call takes up to 88 bytes of stack for each slot (measured on x86-64): 88 KiB for 1,023 slots, 1,408 KiB for the most. Of a load these
 * are the slots that the bytes name, whatever the pool has.
 * Lengths are in elements. A pointer may be NULL where its length is 0, and nowhere else. During a call what is written (pool,
 * answers, out) overlaps nothing else that is lent, the batch and the saved bytes included.
 * A batch is commands one after another, each an operation and its arguments. Numbers in it are seven-bit groups, the lowest first, the
 * top bit set where more follow, with no more groups than needed: 10 is the byte 0A, 200 the bytes C8 01 (docs/FORMATS.md). So an
 * operation is one byte, an argument one to five, and a command eleven at the most.
 * The place where a number goes wrong is a byte, counted from 0: its fifth if that is above 0F; else the end of the input, one past
 * the last byte, if that cuts it short; else its last byte, a 00, if it is not in shortest form. */
#ifndef CHROMATIC_H
#define CHROMATIC_H

#include <stddef.h>
#include <stdint.h>

#ifdef __cplusplus
#define CHROMATIC_AS(type, value) static_cast<type>(value)
extern "C" {
#else
#define CHROMATIC_AS(type, value) ((type)(value))
#endif

/* The number of this interface; docs/INTERFACE.md says what each has. The function returns it. With GCC and Clang every file that
 * includes this header refers to the function, so that a program does not link with an archive of another interface; with
 * another compiler, call it once. */
#define CHROMATIC_INTERFACE 8
uint32_t chromatic_interface_8(void);
#ifdef __GNUC__
__attribute__((used))
#ifdef __has_attribute
#if __has_attribute(retain)
__attribute__((retain)) /* from --gc-sections */
#endif
#endif
static uint32_t (*const chromatic_interface_needed)(void) = chromatic_interface_8;
#endif

#ifdef __GNUC__
#define CHROMATIC_MUST_USE __attribute__((warn_unused_result))
#else
#define CHROMATIC_MUST_USE
#endif

#define CHROMATIC_POOL_WORDS(slots) (4 + 4 * CHROMATIC_AS(size_t, slots)) /* slots from 1 to CHROMATIC_MOST_SLOTS */
#define CHROMATIC_MOST_SLOTS 16383                                        /* which hold 8,192 keys */
#define CHROMATIC_MOST_COMMANDS 256
#define CHROMATIC_COMMAND_BYTES 11 /* at the most: an operation and two arguments */
#define CHROMATIC_ANSWER_WORDS 2 /* for each command: code, number */
#define CHROMATIC_SAVED_BYTES(nodes) (4 + 7 * CHROMATIC_AS(size_t, nodes)) /* enough for that many nodes; for C, whatever is in the pool */

/* What chromatic_may_send and chromatic_clear_notice take. */
#define CHROMATIC_LOWEST_NOTICE 1
#define CHROMATIC_HIGHEST_NOTICE 65535
#define CHROMATIC_LOWEST_RESIDENT 0
#define CHROMATIC_HIGHEST_RESIDENT 8191
#define CHROMATIC_LOWEST_LIMIT 1 /* texts about one notice that a resident may get */
#define CHROMATIC_HIGHEST_LIMIT 7
/* The key that is the mark of an attempt, 1 to 7, to text a resident about a notice: 16, 13 and 3 bits. */
#define CHROMATIC_TEXT_KEY(notice, resident, attempt) ((notice) * UINT32_C(65536) + (resident) * UINT32_C(8) + (attempt))

enum chromatic_code {
    CHROMATIC_GOOD = 0,
    /* The call is refused whole, and no word changes. */
    CHROMATIC_WRONG_LENGTH = 1,
    CHROMATIC_RULES_BROKEN = 2, /* send nothing by it; a pool of interface 5 or before comes over by a save and a load, as said above */
    CHROMATIC_BAD_COMMAND = 3, /* number: the place where a number goes wrong, or where an unknown operation or a 257th command begins */
    CHROMATIC_FEW_ANSWERS = 4,
    /* The command is refused, and no pool word changes. */
    CHROMATIC_KEY_PRESENT = 5,
    CHROMATIC_KEY_ABSENT = 6, /* of CHROMATIC_AT_OR_ABOVE: every key is below */
    CHROMATIC_NO_ROOM = 7, /* the key is not in the set and cannot be marked: send nothing, asking again puts it there no sooner; of
                            * chromatic_may_send, where the call is refused whole, the same of the attempt */
    CHROMATIC_NO_INNER_NODE = 8,
    CHROMATIC_NO_KIND = 9,
    CHROMATIC_CONDITION_FALSE = 10,
    CHROMATIC_TOO_TALL = 11,
    /* Not a refusal: the steps stand. */
    CHROMATIC_BUDGET_SPENT = 12,
    /* The call is refused whole, and no word or byte changes. */
    CHROMATIC_BAD_SAVED = 13,    /* no save writes these bytes: who was told is not known, so send nothing and do not prepare an empty pool;
                                  * number: the place where the first bad number goes wrong, or else the count of the bytes. Bytes of
                                  * more than CHROMATIC_MOST_SLOTS slots too: a later archive, which may have saved them, loads them */
    CHROMATIC_NO_FIT = 14,       /* too little room for the saved bytes; or a pool of another C than the one that was saved */
    CHROMATIC_OUT_OF_RANGE = 15, /* a notice, resident or limit outside its range: send nothing */
    CHROMATIC_ALL_USED = 16      /* attempts 1 to the limit are all marked: send nothing, asking again changes nothing */
};

enum chromatic_operation {
    CHROMATIC_SEARCH = 1,      /* key; number: the leaf's slot */
    CHROMATIC_INSERT = 2,      /* key; number: the new key's slot */
    CHROMATIC_DELETE = 3,      /* key; number: keys left */
    CHROMATIC_STEP = 4,        /* slot, kind; number: the kind */
    CHROMATIC_SETTLE = 5,      /* budget; number: steps taken */
    CHROMATIC_AT_OR_ABOVE = 6, /* key; number: the smallest key at or above it. To walk on, ask from the number plus 1; after UINT32_MAX there is none */
    CHROMATIC_COUNT = 7,       /* first, last; number: how many keys are from first to last, both counting; 0 where first is above last */
    CHROMATIC_DELETE_SPAN = 8  /* first, last; number: how many went: all keys from first to last, the smallest first. Code 0 also for
                                * none. Whoever had a text by one of them can get it again */
};

enum chromatic_figure {
    CHROMATIC_NODES = 1,         /* N */
    CHROMATIC_LEVEL = 2,         /* L */
    CHROMATIC_EXCESS_WEIGHT = 3, /* the sum of weight less one over the edges above weight 1: one leaf of weight 9 gives 8; 0 exactly
                                  * where there is no such edge */
    CHROMATIC_CONFLICTS = 4,     /* R */
    CHROMATIC_OVER_DISTANCE = 5, /* D */
    CHROMATIC_RED_DISTANCE = 6,  /* Q */
    CHROMATIC_BOUND = 7          /* (3N+1)D + 2NR + Q */
};

/* Makes the pool empty: 0, or 1 and no word changes. */
CHROMATIC_MUST_USE uint32_t chromatic_prepare(uint32_t *pool, size_t pool_len);

/* 0, 1 or 2. */
CHROMATIC_MUST_USE uint32_t chromatic_audit(const uint32_t *pool, size_t pool_len);

/* The report's number at an index of enum chromatic_figure; 0 for a refused pool or any other index. */
CHROMATIC_MUST_USE uint64_t chromatic_report(const uint32_t *pool, size_t pool_len, uint32_t index);

/* Runs the commands: 0, or a refusal's code times 2 to the power 32 plus its number: for code 3 the byte at which the batch goes
 * wrong, at most 2,816, else 0. (A 257th command is wrong where it begins, whatever is inside it.) A mark is set when this returns,
 * before its text goes out. */
CHROMATIC_MUST_USE uint64_t chromatic_batch(uint32_t *pool, size_t pool_len, const uint8_t *batch, size_t batch_len,
                                            uint32_t *answers, size_t answers_len);

/* Writes the set as bytes to the beginning of out: their count, or code 1, 2 or 14 (tried in that order) times 2 to the power 32,
 * and no byte is written. Bytes past the count stay: store that many and no more, before the text of a new mark goes out. */
CHROMATIC_MUST_USE uint64_t chromatic_save(const uint32_t *pool, size_t pool_len, uint8_t *out, size_t out_len);

/* Makes the pool, whatever its words are, the set that was saved: N, or code 1, 13 or 14 (tried in that order) times 2 to the
 * power 32 plus its number, and no word changes. The number for code 13 is the byte at which the saved bytes go wrong: C, N and two
 * numbers for each of N nodes are read first, and where all read and no save writes the whole, bytes left over included, it is the
 * count of the bytes; a place past 32 bits is given as 4,294,967,295. For the other codes it is 0. The marks are those of when it was
 * saved: never load older bytes. */
CHROMATIC_MUST_USE uint64_t chromatic_load(uint32_t *pool, size_t pool_len, const uint8_t *saved, size_t saved_len);

/* May one more text about the notice go to the resident? The lowest attempt from 1 to limit that is not marked, and it is marked when
 * this returns: send one text, and after a failed one ask again. Or code 15, 1, 2, 16 or 7 (tried in that order) times 2 to the power
 * 32, no word changes, and NO TEXT MAY GO: whatever is not CHROMATIC_GOOD is no leave to send. Save and store the set before the text. */
CHROMATIC_MUST_USE uint64_t chromatic_may_send(uint32_t *pool, size_t pool_len, uint32_t notice, uint32_t resident, uint32_t limit);

/* Deletes the notice's marks, attempts 1 to 7 of every resident, the smallest key first: how many went; or code 15, 1 or 2 (tried in
 * that order) times 2 to the power 32, and no word changes. Its count of texts begins afresh: only for a notice that is over. */
CHROMATIC_MUST_USE uint64_t chromatic_clear_notice(uint32_t *pool, size_t pool_len, uint32_t notice);

#define CHROMATIC_CODE(answer) CHROMATIC_AS(uint32_t, (answer) >> 32)
#define CHROMATIC_NUMBER(answer) CHROMATIC_AS(uint32_t, (answer) & UINT32_MAX)

#ifdef __cplusplus
}
#endif
#endif
