/* Calls the library on the texts of the named files.
 *
 *   library blocks FILE..    each call on each text, and then with each of its requests for memory refused, alone and with all that follow: a line
 *                            on each answer that is neither the usual one nor that memory ran out, and on each call after which a block isn't
 *                            given back. Linked with -Wl,--wrap=malloc,--wrap=realloc,--wrap=free
 *   library threads FILE..   first by one thread, then by eight at once, each of which makes all the calls on each text: a line on each
 *                            answer that differs, or that isn't given as include/inet.h says in rooms of several sizes; nothing else.
 *                            Exit status 1 where there is a line.
 *   library time CALL FILE.. what a call of check, derive, run or diagnose takes on each text: its bytes, and microseconds
 *   library stack CALL KIB FILE..   the call by a thread with a stack of KIB KiB
 */
#include <inet.h>

#include <pthread.h>
#include <stdatomic.h>
#include <stdio.h>
#include <stdlib.h>
#include <string.h>
#include <time.h>

enum { THREADS = 8, CALLS = 7, MOST_FILES = 512, CANARY = 0xA5, LIMIT = 20000, CELLS = 4096 };

struct answer {
    uint8_t status;
    size_t length;
    uint8_t *bytes;
};

struct text {
    const char *name;
    size_t length;
    uint8_t *bytes;
    struct answer answers[CALLS];
};

static const char *const names[CALLS] = {"check", "derive", "run", "diagnose", "diagnose_data", "export", "run_by"};
static struct text texts[MOST_FILES];
static int text_count;
static atomic_int wrong;

static void *taken(size_t size)
{
    void *it = malloc(size ? size : 1);
    if (!it)
        exit(70);
    return it;
}

/* The calls on a text that have the same form, and the others; by the usual limits, and by the large ones. */
typedef uint8_t plain_call(const uint8_t *, size_t, uint8_t *, size_t, size_t *);
static const struct calls {
    plain_call *check, *derive, *diagnose, *diagnose_data, *export;
    uint8_t (*run)(const uint8_t *, size_t, uint64_t, uint32_t, uint8_t *, size_t, size_t *);
    uint8_t (*run_by)(const uint8_t *, size_t, const uint32_t *, size_t, uint64_t, uint32_t, struct inet_state *, uint8_t *, size_t, size_t *);
} usual = {inet_check, inet_derive, inet_diagnose, inet_diagnose_data, inet_export, inet_run, inet_run_by},
  large_ones = {inet_check_large, inet_derive_large, inet_diagnose_large, inet_diagnose_data_large, inet_export_large, inet_run_large, inet_run_by_large};

static uint8_t call_of(const struct calls *calls, int which, const struct text *text, uint8_t *room, size_t room_size, size_t *length)
{
    static const uint32_t choices[3] = {0, 0, 0};
    struct inet_state state;
    switch (which) {
    case 0: return calls->check(text->bytes, text->length, room, room_size, length);
    case 1: return calls->derive(text->bytes, text->length, room, room_size, length);
    case 2: return calls->run(text->bytes, text->length, LIMIT, CELLS, room, room_size, length);
    case 3: return calls->diagnose(text->bytes, text->length, room, room_size, length);
    case 4: return calls->diagnose_data(text->bytes, text->length, room, room_size, length);
    case 5: return calls->export(text->bytes, text->length, room, room_size, length);
    default: return calls->run_by(text->bytes, text->length, choices, 3, LIMIT, CELLS, &state, room, room_size, length);
    }
}

static uint8_t call(int which, const struct text *text, uint8_t *room, size_t room_size, size_t *length)
{
    return call_of(&usual, which, text, room, room_size, length);
}

static struct answer whole(int which, const struct text *text)
{
    struct answer answer = {0, 0, taken(1)};
    call(which, text, answer.bytes, 0, &answer.length);
    free(answer.bytes);
    answer.bytes = taken(answer.length);
    answer.status = call(which, text, answer.bytes, answer.length, &answer.length);
    return answer;
}

/* Asks with a room of this size, with bytes before and behind it that have to stay. */
static void try_room(int which, const struct text *text, size_t size)
{
    const struct answer *wanted = &text->answers[which];
    size_t length = 0, given = wanted->length < size ? wanted->length : size;
    uint8_t *room = taken(size + 2);
    memset(room, CANARY, size + 2);
    uint8_t status = call(which, text, room + 1, size, &length);
    int good = status == wanted->status && length == wanted->length && room[0] == CANARY && !memcmp(room + 1, wanted->bytes, given);
    for (size_t at = given; at <= size; at++)
        good = good && room[at + 1] == CANARY;
    if (!good) {
        wrong = 1;
        printf("%s of %s in a room of %zu: status %d, %zu bytes; wanted: %d, %zu\n", names[which], text->name, size, status, length, wanted->status, wanted->length);
    }
    free(room);
}

/* By the large limits the answer is the same, since no text given passes the usual ones. */
static void try_large(int which, const struct text *text)
{
    const struct answer *wanted = &text->answers[which];
    uint8_t *room = taken(wanted->length);
    size_t length = 0;
    uint8_t status = call_of(&large_ones, which, text, room, wanted->length, &length);
    if (status != wanted->status || length != wanted->length || memcmp(room, wanted->bytes, length)) {
        wrong = 1;
        printf("%s of %s by the large limits: status %d, %zu bytes; wanted: %d, %zu\n", names[which], text->name, status, length, wanted->status, wanted->length);
    }
    free(room);
}

/* The calls that answer by numbers agree with the others: the status of a text, and a step that builds nothing. */
static void try_numbers(const struct text *text)
{
    struct inet_fault fault, large;
    struct inet_step step = {INET_EMPTY, 0, 0, 0};
    uint32_t part = 0;
    uint8_t wanted = text->answers[0].status, status = inet_refusal(text->bytes, text->length, &fault);
    uint8_t verified = inet_verify(text->bytes, text->length, UINT32_MAX, &step, 1, &part, 0);
    int same = inet_refusal_large(text->bytes, text->length, &large) == status && large.code == fault.code && large.from == fault.from && large.to == fault.to
        && inet_verify_large(text->bytes, text->length, UINT32_MAX, &step, 1, &part, 0) == verified;
    if (!same || status != wanted || (status == INET_REFUSED) != (fault.code > 0) || fault.to > text->length || verified != (wanted == INET_OK ? INET_WRONG_NUMBERS : wanted)) {
        wrong = 1;
        printf("%s: refusal %d, code %u; verify %d; wanted: %d\n", text->name, status, fault.code, verified, wanted);
    }
}

static void *calls_on_all(void *number)
{
    for (int turn = 0; turn < text_count; turn++) {
        const struct text *text = &texts[(turn + (int)(size_t)number * text_count / THREADS) % text_count];
        for (int which = 0; which < CALLS; which++) {
            size_t length = text->answers[which].length;
            try_room(which, text, length + 3);
            if ((size_t)number != (size_t)which)
                continue;
            try_large(which, text);
            try_room(which, text, 0);
            try_room(which, text, length);
            if (length)
                try_room(which, text, length - 1);
        }
        try_numbers(text);
    }
    return 0;
}

static int by_threads(void)
{
    pthread_t threads[THREADS];
    for (int at = 0; at < text_count; at++)
        for (int which = 0; which < CALLS; which++)
            texts[at].answers[which] = whole(which, &texts[at]);
    for (size_t number = 0; number < THREADS; number++)
        if (pthread_create(&threads[number], 0, calls_on_all, (void *)number))
            return 70;
    for (int number = 0; number < THREADS; number++)
        pthread_join(threads[number], 0);
    return wrong;
}

/* Requests for memory while a call is counted: how many there were, how many blocks are not given back, and which request is refused, alone
 * or with all that follow; 0 is none. */
static int counts, all_that_follow;
static long requests, blocks, refused;

static int is_refused(void)
{
    return counts && (++requests == refused || (all_that_follow && refused && requests > refused));
}

void *__real_malloc(size_t size);
void *__real_realloc(void *block, size_t size);
void __real_free(void *block);

void *__wrap_malloc(size_t size)
{
    void *block = is_refused() ? 0 : __real_malloc(size);
    if (counts && block)
        blocks++;
    return block;
}

void *__wrap_realloc(void *block, size_t size)
{
    void *moved = is_refused() ? 0 : __real_realloc(block, size);
    if (counts && moved && !block)
        blocks++;
    return moved;
}

void __wrap_free(void *block)
{
    if (counts && block)
        blocks--;
    __real_free(block);
}

/* The calls that give an answer, and then the two that give numbers. */
static uint8_t counted_call(int which, const struct text *text, uint8_t *room, size_t size, size_t *length)
{
    struct inet_fault fault;
    struct inet_step steps[2] = {{INET_GRAFT, 0, 0, 1}, {INET_EMPTY, 0, 0, 0}};
    uint32_t parts[1] = {0};
    if (which < CALLS)
        return call(which, text, room, size, length);
    return which == CALLS ? inet_refusal(text->bytes, text->length, &fault) : inet_verify(text->bytes, text->length, 0, steps, 2, parts, 1);
}

/* One call with that request refused: whether all blocks were given back, and the answer is the usual one or that memory ran out. */
static void try_refused(int which, const struct text *text, uint8_t usual, long number, int follow)
{
    static uint8_t room[1 << 16];
    size_t length = 0;
    requests = blocks = 0, refused = number, all_that_follow = follow, counts = 1;
    uint8_t status = counted_call(which, text, room, sizeof room, &length);
    counts = 0;
    if (blocks || (number && status != usual && status != INET_MEMORY)) {
        wrong = 1;
        printf("call %d of %s, request %ld refused%s: status %d, %ld blocks are not given back\n", which, text->name, number, follow ? " and all that follow" : "", status, blocks);
    }
}

static int by_blocks(void)
{
    long tried = 0;
    for (int at = 0; at < text_count; at++)
        for (int which = 0; which < CALLS + 2; which++) {
            static uint8_t room[1 << 16];
            size_t length;
            uint8_t usual = counted_call(which, &texts[at], room, sizeof room, &length);
            try_refused(which, &texts[at], usual, 0, 0);
            long all = requests;
            for (long number = 1; number <= all; number++, tried += 2)
                for (int follow = 0; follow < 2; follow++)
                    try_refused(which, &texts[at], usual, number, follow);
        }
    if (!wrong && !tried) {
        wrong = 1;
        puts("no request was refused");
    }
    return wrong;
}

static int call_named(const char *name)
{
    for (int which = 0; which < CALLS; which++)
        if (!strcmp(names[which], name))
            return which;
    exit(70);
}

static double now(void)
{
    struct timespec it;
    clock_gettime(CLOCK_MONOTONIC, &it);
    return it.tv_sec * 1e6 + it.tv_nsec / 1e3;
}

/* The least of several means, each over a tenth of a second at least. */
static void tell_time(int which, const struct text *text)
{
    static uint8_t room[1 << 24];
    double least = 0;
    size_t length;
    uint8_t status = 0;
    for (int turn = 0; turn < 7; turn++) {
        double begun = now(), spent = 0;
        long count = 0;
        for (; spent < 1e5; count++, spent = now() - begun)
            status = call(which, text, room, sizeof room, &length);
        least = turn && least < spent / count ? least : spent / count;
    }
    printf("%s %s: %zu bytes, status %d, %.1f microseconds\n", names[which], text->name, text->length, status, least);
}

static int stack_call;

static void *call_once(void *text)
{
    struct answer answer = whole(stack_call, text);
    printf("%s %s: status %d\n", names[stack_call], ((struct text *)text)->name, answer.status);
    return 0;
}

static void on_stack(size_t size, struct text *text)
{
    pthread_t thread;
    pthread_attr_t attributes;
    pthread_attr_init(&attributes);
    if (pthread_attr_setstacksize(&attributes, size) || pthread_create(&thread, &attributes, call_once, text))
        exit(70);
    pthread_join(thread, 0);
}

static void read_file(const char *name)
{
    FILE *file = fopen(name, "rb");
    struct text *text = &texts[text_count++];
    if (!file || fseek(file, 0, SEEK_END) || text_count == MOST_FILES)
        exit(70);
    long size = ftell(file);
    rewind(file);
    text->name = name;
    text->bytes = taken(size);
    text->length = fread(text->bytes, 1, size, file);
    fclose(file);
}

int main(int count, char **words)
{
    const char *what = count > 1 ? words[1] : "";
    int is_blocks = !strcmp(what, "blocks");
    int first = is_blocks || !strcmp(what, "threads") ? 2 : !strcmp(what, "time") ? 3 : !strcmp(what, "stack") ? 4 : 70;
    if (count <= first)
        return 70;
    for (int at = first; at < count; at++)
        read_file(words[at]);
    if (first == 2)
        return is_blocks ? by_blocks() : by_threads();
    int which = stack_call = call_named(words[2]);
    for (int at = 0; at < text_count; at++)
        if (first == 3)
            tell_time(which, &texts[at]);
        else
            on_stack((size_t)atol(words[3]) * 1024, &texts[at]);
    return 0;
}
