/* The checker and the runner `inet` for programs of interaction nets, in the process of whoever calls them: libinet.
 *
 * Most calls go from a program's text to the bytes that the program `inet` writes on it, two to numbers. docs/use/LIBRARY.md says what is
 * proved of a call, and how the library is built and installed, docs/use/OUTPUT.md what is written.
 *
 * Buffers. `text` points to `text_length` bytes, which need not be well-formed UTF-8 nor end with a zero byte. The answer goes to `room`,
 * of `room_size` bytes, and `*length` says how many bytes the whole answer has, whether there is room for them or not:
 *   - where *length <= room_size the answer is the first *length bytes of `room`, and what lies behind them is as it was;
 *   - where *length > room_size all of `room` is filled with the first bytes of the answer, and a second call with room for *length bytes
 *     has them all. The answer has no zero byte at its end.
 * The caller owes, since nothing checks it:
 *   - no pointer is null, not even one to 0 bytes or to no elements, each is aligned for its type, and no size is above PTRDIFF_MAX bytes;
 *   - during the call nobody else writes `text`, nor what else a `const` leads to, and nobody else reads or writes `room`, `*length`,
 *     `*fault` and `*state`; none of these overlap.
 *
 * Threads. The library has no state of its own: any number of threads may call at once, each with a room and a length of its own; they
 * may share a text that nobody writes. A call starts no thread, takes no lock and waits for nobody, and there is nothing to set up.
 *
 * Memory. What is lent stays the caller's. A call takes memory by the program's malloc, realloc and free, and no contract says that it gives
 * all of it back before it returns, but each call that is tested does. So there is nothing to free. These three are one allocator's, may be
 * called by several threads at once where the calls are, and align a block of malloc and of realloc to each power of two up to 16 that
 * divides its size. Where one of them answers null the call ends with INET_MEMORY. No call comes from a signal handler, nor from the child
 * that a process with threads forked. A call needs 64 KiB of stack, however deep the text is.
 */
#ifndef INET_H
#define INET_H

#include <stddef.h>
#include <stdint.h>

#ifdef __cplusplus
extern "C" {
#endif

/* The version that this header describes, 0.1.0: a million for its first number, a thousand for the second one, and the third one. */
#define INET_VERSION 1000

/* The version of the library. */
uint32_t inet_version(void);

/* What a call answers: the exit status of the program. */
enum inet_status {
    INET_OK = 0,            /* the text is accepted; for a run: no active pair is left */
    INET_REFUSED = 1,       /* the text is refused */
    INET_WRONG_NUMBERS = 2, /* a run: the limit or the cells are out of range, and the answer has no bytes; inet_run_by: also a choice of
                               which there is no pair; inet_verify: the numbers are no steps that build it */
    INET_LIMIT = 3,         /* a run: as many interactions as are allowed */
    INET_FULL = 4,          /* a run: too few cells */
    INET_MEMORY = 5         /* out of memory; the answer is the line `memory`, that of inet_diagnose, inet_diagnose_data and
                               inet_run_by has no bytes */
};

/* What `inet check` writes to standard output: a line that counts what the program has, or the line of the refusal. */
uint8_t inet_check(const uint8_t *text, size_t text_length, uint8_t *room, size_t room_size, size_t *length);

/* What `inet derive` writes: the steps that build each rule and the net, or the line of the refusal. */
uint8_t inet_derive(const uint8_t *text, size_t text_length, uint8_t *room, size_t room_size, size_t *length);

/* What `inet run` with one worker writes: the net that it comes to, the count of interactions and why it stopped, or the line of the
 * refusal. `limit` is how many interactions there are at most, 0 to 1,000,000,000,000; `cells` how many cells of each of three sizes,
 * 16 to 1,048,576: about 270 bytes are taken for each. (The program's usual numbers are 1,000,000 and 65,536.) */
uint8_t inet_run(const uint8_t *text, size_t text_length, uint64_t limit, uint32_t cells, uint8_t *room, size_t room_size, size_t *length);

/* The diagnosis that `inet` writes to standard error on a text that is refused: several lines for people, whose words may change. It has no
 * bytes where the text is accepted. Answers INET_OK, INET_REFUSED or INET_MEMORY. */
uint8_t inet_diagnose(const uint8_t *text, size_t text_length, uint8_t *room, size_t room_size, size_t *length);

/* The same diagnosis as data: one JSON object on one line, docs/use/LIBRARY.md says which. It has no bytes where the text is accepted. Answers
 * INET_OK, INET_REFUSED or INET_MEMORY. */
uint8_t inet_diagnose_data(const uint8_t *text, size_t text_length, uint8_t *room, size_t room_size, size_t *length);

/* The accepted program as data, as `inet_export` writes it: one JSON object on one line, docs/use/EXPORT.md says which. Where the text is
 * refused, the line of the refusal. Answers INET_OK, INET_REFUSED or INET_MEMORY. */
uint8_t inet_export(const uint8_t *text, size_t text_length, uint8_t *room, size_t room_size, size_t *length);

/* Why a text is refused, as numbers. All are 0 where it isn't. */
struct inet_fault {
    uint32_t code;               /* 1 for E01, 15 for E15 */
    uint32_t line, column;       /* from 1; a column is a character */
    size_t from, to;             /* the bytes of the text at the place, from 0: the first one, and the one after the last */
    size_t other_from, other_to; /* E15: those of the name of the other symbol */
};

/* Stores why the text is refused. Answers INET_OK, INET_REFUSED or INET_MEMORY. */
uint8_t inet_refusal(const uint8_t *text, size_t text_length, struct inet_fault *fault);

/* Where a run stands. */
struct inet_state {
    uint64_t chosen;  /* how many of the choices were done */
    uint64_t further; /* how many interactions came after them */
    uint32_t pairs;   /* how many active pairs are left */
    uint32_t agents;  /* how many agents the net has */
};

/* A run whose first pairs the caller chooses, so that a run can be shown step by step, and gone on with in any order: the interaction of the
 * pair of number choices[0] in the queue, from 0, then of choices[1] in the queue that this left, and so on; and after all choices at most
 * `limit` interactions, the first pair first. `limit` and `cells` are as for inet_run. The answer is the net, as `inet run` prints it; its lines
 * `term ~ term` are the active pairs, in the order of the queue.
 *
 * Answers INET_OK where no pair is left, INET_LIMIT where pairs are left and `limit` interactions came after the choices, INET_FULL where the
 * next choice's pair, or the first pair, needs more cells than are free, INET_WRONG_NUMBERS for a choice of which there is no pair: then the
 * net and the numbers are those before it. The answer has no bytes, and all numbers are 0, where the text is refused (INET_REFUSED), a number
 * is out of range (INET_WRONG_NUMBERS), the program's net doesn't fit the cells (INET_FULL), or for INET_MEMORY. */
uint8_t inet_run_by(const uint8_t *text, size_t text_length, const uint32_t *choices, size_t choice_count, uint64_t limit, uint32_t cells,
                    struct inet_state *state, uint8_t *room, size_t room_size, size_t *length);

/* A step as numbers, in the words of docs/use/EXPORT.md; what a kind doesn't name counts for nothing. */
struct inet_step {
    uint32_t kind, first, second, third;
};

enum inet_step_kind {
    INET_EMPTY = 0, /* ["empty"] */
    INET_LINK = 1,  /* ["link", first] */
    INET_GIVEN = 2, /* ["given", first] */
    INET_GRAFT = 3, /* ["graft", first, [..]]: the list is `third` elements of `parts`, from number `second` on */
    INET_CUT = 4,   /* ["cut", first, second, third] */
    INET_MIX = 5    /* ["mix", first, second] */
};

/* Whether these steps build the rule of that number, from 0 in the order of the text, or the net, which has the number after the last rule's.
 * Nodes and wires have the numbers of the export. Answers INET_OK where they do, INET_WRONG_NUMBERS where they don't or there is no such rule,
 * INET_REFUSED where the text is refused, or INET_MEMORY. */
uint8_t inet_verify(const uint8_t *text, size_t text_length, uint32_t number, const struct inet_step *steps, size_t step_count,
                    const uint32_t *parts, size_t part_count);

/* The same calls for a larger program: a text of up to 64 MiB, a net of up to 1,048,576 agents, and more of all else, as by the option
 * `--large` of the programs; docs/use/LANGUAGE.md has all limits. */
uint8_t inet_check_large(const uint8_t *text, size_t text_length, uint8_t *room, size_t room_size, size_t *length);
uint8_t inet_derive_large(const uint8_t *text, size_t text_length, uint8_t *room, size_t room_size, size_t *length);
uint8_t inet_run_large(const uint8_t *text, size_t text_length, uint64_t limit, uint32_t cells, uint8_t *room, size_t room_size,
                       size_t *length);
uint8_t inet_diagnose_large(const uint8_t *text, size_t text_length, uint8_t *room, size_t room_size, size_t *length);
uint8_t inet_diagnose_data_large(const uint8_t *text, size_t text_length, uint8_t *room, size_t room_size, size_t *length);
uint8_t inet_export_large(const uint8_t *text, size_t text_length, uint8_t *room, size_t room_size, size_t *length);
uint8_t inet_refusal_large(const uint8_t *text, size_t text_length, struct inet_fault *fault);
uint8_t inet_run_by_large(const uint8_t *text, size_t text_length, const uint32_t *choices, size_t choice_count, uint64_t limit,
                          uint32_t cells, struct inet_state *state, uint8_t *room, size_t room_size, size_t *length);
uint8_t inet_verify_large(const uint8_t *text, size_t text_length, uint32_t number, const struct inet_step *steps, size_t step_count,
                          const uint32_t *parts, size_t part_count);

#ifdef __cplusplus
}
#endif

#endif
