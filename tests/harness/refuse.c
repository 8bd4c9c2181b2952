/* Preloaded into a program, refuses one of its requests, as the environment says:
 *
 *   REFUSE_KIND   memory, read, write or tell: what is counted and refused (tell: a write to standard error)
 *   REFUSE_AT     the number, from 1, of the request that is refused (without it none is)
 *   REFUSE_ON     set: that request and all that follow
 *   REFUSE_BY     fail (the default: an error is answered) or nothing (a write that takes no byte)
 *   AT_ONCE       so many bytes at most are moved by each read and write
 *   ROOM          so many bytes in all are taken by standard output, after which each write is refused
 *   REFUSE_REPORT a file of sizeof(struct report) bytes, which holds the counts at each moment: they outlast any end. Also how many blocks
 *                 of memory were taken and not given back, but for those that the C library takes for a thread
 *
 * The start of a thread is one request for memory, and each request that the C library makes for it is one more. The report tells
 * these from the program's own requests, since a thread that can't be started is no fault of a run.
 */
#define _GNU_SOURCE
#include <dlfcn.h>
#include <errno.h>
#include <fcntl.h>
#include <pthread.h>
#include <stdint.h>
#include <stdlib.h>
#include <string.h>
#include <sys/mman.h>
#include <sys/syscall.h>
#include <sys/uio.h>
#include <unistd.h>

enum kind { MEMORY, READ, WRITE, TELL, KINDS };
enum refused { NOTHING, REQUEST, THREAD_START };

struct report {
    long counts[KINDS];
    long threads;
    long refused;
    long blocks;
};

static struct report unreported, *report = &unreported;
static long refuse_at;
static int refuse_kind = KINDS, goes_on, takes_nothing;
static size_t at_once = SIZE_MAX, room = SIZE_MAX;
static __thread int starts_thread;
static int (*start_thread)(pthread_t *, const pthread_attr_t *, void *(*)(void *), void *);

extern void *__libc_malloc(size_t);
extern void *__libc_calloc(size_t, size_t);
extern void *__libc_realloc(void *, size_t);
extern void *__libc_memalign(size_t, size_t);
extern void __libc_free(void *);

static int kind_of(const char *word)
{
    static const char *const words[KINDS] = {"memory", "read", "write", "tell"};
    for (int kind = 0; word && kind < KINDS; kind++)
        if (!strcmp(word, words[kind]))
            return kind;
    return KINDS;
}

static size_t bytes(const char *name)
{
    const char *number = getenv(name);
    return number ? (size_t)atol(number) : SIZE_MAX;
}

static size_t least(size_t one, size_t other) { return one < other ? one : other; }

/* Until this ran nothing is refused: what the loader asks for is no request of the program. */
__attribute__((constructor)) static void begin(void)
{
    const char *at = getenv("REFUSE_AT"), *by = getenv("REFUSE_BY"), *path = getenv("REFUSE_REPORT");
    int file = path ? open(path, O_RDWR | O_CLOEXEC) : -1;
    void *shared = file < 0 ? MAP_FAILED : mmap(0, sizeof *report, PROT_READ | PROT_WRITE, MAP_SHARED, file, 0);
    start_thread = dlsym(RTLD_NEXT, "pthread_create");
    goes_on = getenv("REFUSE_ON") != 0;
    at_once = bytes("AT_ONCE");
    room = bytes("ROOM");
    takes_nothing = by && !strcmp(by, "nothing");
    if (file >= 0)
        close(file);
    if (shared == MAP_FAILED)
        return;
    report = shared;
    report->blocks = unreported.blocks;
    refuse_kind = kind_of(getenv("REFUSE_KIND"));
    refuse_at = at ? atol(at) : 0;
}

static int is_refused(enum kind kind, enum refused what)
{
    if (report == &unreported)
        return 0;
    long number = __sync_add_and_fetch(&report->counts[kind], 1);
    if ((int)kind != refuse_kind || !refuse_at || number < refuse_at || (number > refuse_at && !goes_on))
        return 0;
    if (number == refuse_at)
        report->refused = what;
    return 1;
}

static int memory_is_refused(void)
{
    if (!is_refused(MEMORY, starts_thread ? THREAD_START : REQUEST))
        return 0;
    errno = ENOMEM;
    return 1;
}

/* A block that was had, if it was. */
static void *taken(void *block)
{
    if (block && !starts_thread)
        __sync_add_and_fetch(&report->blocks, 1);
    return block;
}

void *malloc(size_t size) { return memory_is_refused() ? 0 : taken(__libc_malloc(size)); }
void *calloc(size_t count, size_t size) { return memory_is_refused() ? 0 : taken(__libc_calloc(count, size)); }
void *memalign(size_t to, size_t size) { return memory_is_refused() ? 0 : taken(__libc_memalign(to, size)); }
void *aligned_alloc(size_t to, size_t size) { return memory_is_refused() ? 0 : taken(__libc_memalign(to, size)); }

void *realloc(void *old, size_t size)
{
    void *block = memory_is_refused() ? 0 : __libc_realloc(old, size);
    return old ? block : taken(block);
}

void free(void *block)
{
    if (block && !starts_thread)
        __sync_sub_and_fetch(&report->blocks, 1);
    __libc_free(block);
}

int posix_memalign(void **made, size_t to, size_t size)
{
    void *it = memory_is_refused() ? 0 : taken(__libc_memalign(to, size));
    if (!it)
        return ENOMEM;
    *made = it;
    return 0;
}

int pthread_create(pthread_t *thread, const pthread_attr_t *attributes, void *(*body)(void *), void *argument)
{
    __sync_add_and_fetch(&report->threads, 1);
    if (!start_thread || is_refused(MEMORY, THREAD_START))
        return EAGAIN;
    starts_thread = 1;
    int answer = start_thread(thread, attributes, body, argument);
    starts_thread = 0;
    return answer;
}

ssize_t read(int file, void *to, size_t size)
{
    int is_text = file == 0 || file > 2;
    if (is_text && is_refused(READ, REQUEST)) {
        errno = EIO;
        return -1;
    }
    return syscall(SYS_read, file, to, is_text ? least(size, at_once) : size);
}

ssize_t write(int file, const void *from, size_t size)
{
    if ((file == 1 && (is_refused(WRITE, REQUEST) || (size && !room))) || (file == 2 && is_refused(TELL, REQUEST))) {
        if (takes_nothing)
            return 0;
        errno = EIO;
        return -1;
    }
    ssize_t written = syscall(SYS_write, file, from, file == 1 ? least(least(size, at_once), room) : size);
    if (file == 1 && room != SIZE_MAX && written > 0)
        room -= (size_t)written;
    return written;
}

ssize_t __write(int file, const void *from, size_t size) { return write(file, from, size); }
