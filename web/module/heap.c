/* Memory for the module, in the place of malloc, realloc and free: not proved. heap_test.c tries it.
 *
 * It is one region, which grows at its end and never shrinks. Blocks lie side by side in it, each behind a head of 16 bytes; their sizes are
 * multiples of 16. A free block is joined with the free ones beside it, and is in the list of its size: there are four lists for each power of
 * two. One thread calls, as in each module of WebAssembly without shared memory.
 */
typedef unsigned long long word;
typedef struct { word ok; void *place; } Tried;

/* A block: how many bytes it has with its head, how many the block before it has, and, while it is free, its list's neighbours. */
typedef struct block { word size, before; struct block *next, *previous; } Block;
enum { HEAD = 16, LEAST = 32, LISTS = 256, LOOKS = 32 };
static const word USED = 1, MOST = 1ull << 32;

/* The bytes of the region: where it begins, and whether it grew by so many pages of 64 KiB. */
#ifdef __wasm__
extern unsigned char __heap_base;
static unsigned char *region_start(void) { return &__heap_base; }
static word region_size(void) { return (__builtin_wasm_memory_size(0) << 16) - (word)&__heap_base; }
/* In a memory that was made one of 32 bits, the -1 of a refusal has 32 bits too. */
static int region_grows(word pages) { return (unsigned)__builtin_wasm_memory_grow(0, pages) != (unsigned)-1; }
#else
static unsigned char *region_start(void);
static word region_size(void);
static int region_grows(word pages);
#endif

static Block *lists[LISTS];
static word filled[LISTS / 64];
/* The first block, the end of the last one, and how many bytes that has. */
static unsigned char *start, *end;
static word last;

static word size_of(const Block *block) { return block->size & ~USED; }
static Block *after(const Block *block) { return (Block *)((unsigned char *)block + size_of(block)); }
static Block *before(const Block *block) { return (Block *)((unsigned char *)block - block->before); }
static int is_free(const Block *block) { return !(block->size & USED); }

/* Two blocks in one list differ by less than a quarter of the smaller one. */
static unsigned list_of(word size) {
  unsigned power = 63 - __builtin_clzll(size);
  return power * 4 + (unsigned)(size >> (power - 2) & 3);
}

static void enlist(Block *block) {
  unsigned list = list_of(block->size);
  block->previous = 0;
  block->next = lists[list];
  if (block->next) block->next->previous = block;
  lists[list] = block;
  filled[list / 64] |= 1ull << list % 64;
}

static void delist(Block *block) {
  unsigned list = list_of(block->size);
  if (block->next) block->next->previous = block->previous;
  if (block->previous) block->previous->next = block->next;
  else lists[list] = block->next;
  if (!lists[list]) filled[list / 64] &= ~(1ull << list % 64);
}

/* Sets the size of a block, and says so to the one after it. */
static void measure(Block *block, word size, word used) {
  block->size = size | used;
  if ((unsigned char *)after(block) < end) after(block)->before = size;
  else last = size;
}

/* Makes a block free, as one with its free neighbours. */
static void release(Block *block) {
  word size = size_of(block);
  Block *next = after(block);
  if ((unsigned char *)next < end && is_free(next)) {
    delist(next);
    size += next->size;
  }
  if (block->before && is_free(before(block))) {
    block = before(block);
    delist(block);
    size += block->size;
  }
  measure(block, size, 0);
  enlist(block);
}

/* Cuts a used block down to so many bytes, where what is left makes a block. */
static void cut(Block *block, word size) {
  word rest = size_of(block) - size;
  if (rest < LEAST) return;
  measure(block, size, USED);
  Block *other = after(block);
  other->before = size;
  measure(other, rest, USED);
  release(other);
}

/* A free block of so many bytes or more: one of the first few in the list of this size, else the first in a list of larger ones. */
static Block *found(word size) {
  unsigned list = list_of(size), looks = 0;
  for (Block *block = lists[list]; block && looks < LOOKS; block = block->next, looks++)
    if (block->size >= size) return block;
  for (unsigned later = list + 1; later < LISTS; later = (later | 63) + 1) {
    word some = filled[later / 64] >> later % 64;
    if (some) return lists[later + (unsigned)__builtin_ctzll(some)];
  }
  return 0;
}

/* Makes the region longer by this many bytes or more, which are free then. */
static int grow(word size) {
  if (!start) start = end = (unsigned char *)(((word)region_start() + 15) & ~15ull);
  word had = (word)(end - start), whole = (region_size() - (word)(start - region_start())) & ~15ull;
  if (whole < had + size) {
    if (!region_grows((had + size - whole + 65535) >> 16)) return 0;
    whole = (region_size() - (word)(start - region_start())) & ~15ull;
  }
  Block *block = (Block *)end;
  end = start + whole;
  block->before = last;
  measure(block, whole - had, USED);
  release(block);
  return 1;
}

static word needed(word size) { return size + HEAD < LEAST ? LEAST : (size + HEAD + 15) & ~15ull; }

static void *take(word bytes) {
  if (bytes > MOST) return 0;
  word size = needed(bytes);
  Block *block = found(size);
  if (!block && grow(size)) block = found(size);
  if (!block) return 0;
  delist(block);
  block->size |= USED;
  cut(block, size);
  return (unsigned char *)block + HEAD;
}

static Block *block_at(void *place) { return (Block *)((unsigned char *)place - HEAD); }

static void give_back(void *place) { release(block_at(place)); }

Tried rattle_alloc(word bytes, word alignment) {
  void *place = take(bytes ? bytes : alignment);
  return (Tried){place != 0, place ? place : (void *)16};
}

void rattle_dealloc(void *place) { give_back(place); }

/* Of a block that moves as many bytes are kept as the caller says. */
Tried rattle_realloc(void *place, word kept, word bytes, word alignment) {
  if (!bytes) bytes = alignment;
  if (bytes > MOST) return (Tried){0, (void *)16};
  Block *block = block_at(place), *next = after(block);
  word size = needed(bytes), had = size_of(block);
  if (had < size && (unsigned char *)next < end && is_free(next) && had + next->size >= size) {
    delist(next);
    measure(block, had + next->size, USED);
  }
  if (size_of(block) >= size) {
    cut(block, size);
    return (Tried){1, place};
  }
  void *other = take(bytes);
  if (!other) return (Tried){0, (void *)16};
  __builtin_memcpy(other, place, kept < had - HEAD ? kept : had - HEAD);
  give_back(place);
  return (Tried){1, other};
}

/* For the host: room in the module's memory, 0 where there is none, and back. */
void *room(word bytes) { return take(bytes); }
void leave(void *place) { give_back(place); }
