/* Tries heap.c natively, over a region that grows up to a limit: blocks of random sizes are taken, made longer and shorter, and given back. Not
 * proved. Usage: heap_test SEED. It prints what is wrong, and has status 1 then.
 *
 * Each block is filled with a pattern of its own, which has to be there when it is looked at again. After all are given back, one free block is
 * left; and as the blocks that are held never have more than half of the limit, each request that fits must be met.
 */
#include <stdio.h>
#include <stdlib.h>
#include <string.h>
#include "heap.c"

enum { LIMIT = 4 << 20, HELD = 1000, TURNS = 200000 };
static _Alignas(65536) unsigned char region[LIMIT];
static word pages = 1;
static int wrong;

static unsigned char *region_start(void) { return region + 8; }
static word region_size(void) { return (pages << 16) - 8; }
static int region_grows(word more) {
  if ((pages + more) << 16 > LIMIT) return 0;
  pages += more;
  return 1;
}

static struct { unsigned char *place; word bytes; unsigned char pattern; } held[HELD];
static word in_use, state;

static word chosen(word below) {
  state ^= state << 13, state ^= state >> 7, state ^= state << 17;
  return state % below;
}

static word some_size(void) { return chosen(100) ? chosen(chosen(10) ? 200 : 20000) : chosen(300000); }

static void need(int holds, const char *what) {
  if (!holds) wrong = 1, printf("wrong: %s\n", what);
}

static int has_pattern(int i, word bytes) {
  for (word at = 0; at < bytes; at++)
    if (held[i].place[at] != held[i].pattern) return 0;
  return 1;
}

/* All blocks one after another: sizes and neighbours fit, no two free ones are side by side, and each free one is in a list. */
static void look_at_all(void) {
  word previous = 0, free_blocks = 0, listed = 0;
  int was_free = 0;
  for (Block *block = (Block *)start; (unsigned char *)block < end; block = after(block)) {
    need(block->before == previous && size_of(block) >= LEAST && size_of(block) % 16 == 0, "a block's size");
    need(!(was_free && is_free(block)), "two free blocks side by side");
    was_free = is_free(block);
    free_blocks += was_free;
    previous = size_of(block);
  }
  for (int list = 0; list < LISTS; list++)
    for (Block *block = lists[list]; block; block = block->next) {
      need(is_free(block) && (int)list_of(block->size) == list, "a list");
      listed++;
    }
  need(free_blocks == listed, "a free block is in no list");
}

static void resize(int i, word bytes) {
  word kept = held[i].bytes < bytes ? held[i].bytes : bytes;
  Tried tried = held[i].place ? rattle_realloc(held[i].place, kept, bytes, 8) : rattle_alloc(bytes, 8);
  if (!tried.ok) {
    need(0, "a request isn't met");
    return;
  }
  in_use += bytes - held[i].bytes;
  held[i].place = tried.place;
  need((word)tried.place % 16 == 0, "a place");
  need(has_pattern(i, kept), "a pattern");
  held[i].bytes = bytes;
  held[i].pattern = (unsigned char)chosen(256);
  memset(held[i].place, held[i].pattern, bytes);
}

int main(int count, char **words) {
  state = 88172645463325252ull + (count > 1 ? strtoull(words[1], 0, 10) : 0);
  for (int turn = 0; turn < TURNS && !wrong; turn++) {
    int i = (int)chosen(HELD);
    if (!held[i].place || chosen(3) == 0) {
      word bytes = some_size();
      if (in_use + bytes < LIMIT / 8) resize(i, bytes);
    } else {
      need(has_pattern(i, held[i].bytes), "a pattern");
      in_use -= held[i].bytes;
      rattle_dealloc(held[i].place);
      held[i].place = 0, held[i].bytes = 0;
    }
    if (turn % 1000 == 0) look_at_all();
  }
  for (int i = 0; i < HELD; i++)
    if (held[i].place) rattle_dealloc(held[i].place);
  look_at_all();
  need(is_free((Block *)start) && after((Block *)start) == (Block *)end, "not all is one free block");
  /* What can't be met is refused, and leaves all as it was. */
  need(!rattle_alloc(LIMIT, 8).ok && !room(~0ull) && !room(MOST), "a request that is too large");
  unsigned char *place = room(100);
  memset(place, 7, 100);
  Tried tried = rattle_realloc(place, 100, LIMIT, 8);
  need(!tried.ok && place[99] == 7, "a block that can't become longer");
  need(!rattle_realloc(place, 100, ~0ull, 8).ok, "a length that is too large");
  leave(place);
  void *whole = room((word)(end - start) - HEAD);
  need(whole != 0, "the whole region in one block");
  return wrong;
}
