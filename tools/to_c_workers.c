// ---- Several workers, each a thread. They give pairs to who has none, and letters about wires go between them (to_c_wires.c).

#ifdef STRESS
enum { LOOKED_ALONE = 30, WINDOW = 200, ACCOUNTED = 1, ACCOUNTED_IN_TRIAL = 1 };
enum { LOOKED_AT = 2, SPIN = 10, YIELDS = 0, SPARE_WORDS = 1, READY_WORDS = 1 };
enum { LEAST_PAIRS = 1, MANY_PAIRS = 1, MANY_TIMES = 1, MOST_GIVEN = 3, MOST_IN_GIFT = 9, MOST_IN_TRIAL = 9 };
enum { FIRST_PAIRS = 4, REFUSED_TIMES = 1, MOST_PATIENCE = 2, MOST_REVERSED = 32 };
enum { LASTS = 6, PAIR_LASTS = 3, AGENT_LASTS = 0, LASTS_LONG = 20 };
// In nanoseconds.
enum { FIRST_ALONE = 0, FEW_LATER = 0, STARTS_BEFORE = 0, LEAST_ALONE = 0, MOST_ALONE = 0, REGAINED = 0, GAINED = 0 };
enum { MOST_LOST = 2000000, MOST_UNPAID = 100000000, LOOKED_BACK = 20000, LOOKED_BACK_SOON = 10000, LONG_UNJUDGED = 10000, HELD_UP = 0, HELD_UP_IN_TRIAL = 0 };
enum { STARTS_ALL = 1 };
#else
// In interactions: how often one worker alone looks whether others are to begin; how much of what all do is judged; and how often each tells of it, and in a trial.
enum { LOOKED_ALONE = 16384, WINDOW = 200000, ACCOUNTED = 8192, ACCOUNTED_IN_TRIAL = 2048 };
// Between two slices a worker looks at so many stubs. It gives pairs away where it has so many, and so many at a time at most, until so many
// agents go with them, fewer before it paid. One that has so many pairs so many times may have work for others.
enum { LOOKED_AT = 64, LEAST_PAIRS = 2, MANY_PAIRS = 4, MANY_TIMES = 16, MOST_GIVEN = 256, MOST_IN_GIFT = 4096, MOST_IN_TRIAL = 256 };
// Of so many of the oldest pairs one is to be worth it; after so many times that none was, what is known of that is forgotten, and each further
// time after twice as many, up to so many times as many, until a gift lasts long.
enum { FIRST_PAIRS = 128, REFUSED_TIMES = 64, MOST_PATIENCE = 256 };
// Where a slice made more pairs than that, their order stays.
enum { MOST_REVERSED = 32 };
// Who comes back for pairs sooner than after so many interactions gets more of them. Pairs were worth it where they lasted for some interactions,
// and for some more for each agent that came with them. Gifts that last so long say that there is work to be shared.
enum { LASTS = 15000, PAIR_LASTS = 500, AGENT_LASTS = 12, LASTS_LONG = 20000 };
// How often a worker that has nothing to do looks for letters before that counts as waiting, and lets others go first before it sleeps. How many
// words of memory it has before it takes free cells of others, and how many it touches before it begins.
enum { SPIN = 500, YIELDS = 1000, SPARE_WORDS = 1 << 20, READY_WORDS = 1 << 13 };
// By the clock, in nanoseconds: one worker is alone for so long, and so much longer if it has few pairs; and a thread starts so long before that ends.
// Then another one begins, for a trial. After one that didn't gain, as chance may have it where others use the processors, the first worker is alone
// for so long, three times as long after each further one, but so long at most, and so many times as long as was lost at least; after one that gained
// so much, for the first of these times again.
enum { FIRST_ALONE = 2000000, FEW_LATER = 10000000, STARTS_BEFORE = 300000 };
enum { LEAST_ALONE = 4000000, MOST_ALONE = 1000000000, REGAINED = 32, GAINED = 1000000 };
// A trial ends that lost so much, or didn't pay for so long. Once it paid, all work so long before it is seen whether they do more than one did alone,
// or only so long where letters and waiting cost much; and that is judged after so long at last.
enum { MOST_LOST = 120000, MOST_UNPAID = 2000000, LOOKED_BACK = 4000000, LOOKED_BACK_SOON = 500000, LONG_UNJUDGED = 1000000 };
// A time that something else has the first worker's processor counts as neither lost nor gained if it is longer than this; in a trial a shorter one too.
enum { HELD_UP = 300000, HELD_UP_IN_TRIAL = 60000 };
// Whether all threads start at once, or the second one alone before it pays.
enum { STARTS_ALL = 0 };
#endif
// What it costs to wait, in interactions, of the first worker, who would have something to do if it were alone, before it ever paid and later, of
// another, and of all at once, while a letter goes from one to another. All together have to do so many times as much as letters and waiting cost.
enum { EARLY_WAITING_COSTS = 5000, FIRST_WAITING_COSTS = 1500, WAITING_COSTS = 200, ALL_WAITING_COSTS = 10000, PAYS = 4 };
// Who works so many times as slowly as usual is held up.
enum { SLOW = 4 };

static struct {
  pthread_mutex_t lock;
  // For who is parked, and for the first worker, who waits until all are.
  pthread_cond_t parted;
  // The interactions that nobody has drawn.
  int64_t left;
  // Lists of free cells by arity.
  struct lists { word **items; size_t count, room; } cells[MOST_ARITY + 1];
  // How many workers there are, are to work, were to work at most, and wait for letters; and how often in a row the first one had many pairs.
  _Atomic int size;
  int active, most, idle, many_times;
  // Whether it paid when it was judged last, and since others began; and whether more threads were asked for.
  _Atomic bool has_paid;
  bool paid_before, is_asked;
  // Since the last judgement interactions of all, those of all but the first worker, and what letters and waiting cost.
  int64_t done, by_others, cost;
  // What all have done so far, and had when others began last. By the clock: when they began, and may begin next, and for how long one is alone; when it
  // was judged last; when the time that is looked back on began, and what had been done then; and when one alone looked around last, what it had done
  // then, how many interactions it does in a nanosecond, and whether it was slow then. For how long the first worker was held up, and when that was
  // seen last.
  int64_t total, begun_done, begun_at, begin_at, alone_for, judged_at, back_from, back_done, alone_from, alone_done, held_up, seen_at;
  double alone_speed;
  bool was_slow;
} team = {.lock = PTHREAD_MUTEX_INITIALIZER, .parted = PTHREAD_COND_INITIALIZER};
// What a worker looks at without the lock: how many lack pairs, and how many are parked; whether all but the first are to park, and whether all have
// ended; whether there are lists of free cells, and how often somebody looked for one.
static _Atomic int hungry, parked;
static _Atomic bool is_parting, is_done;
// Whether more threads are to start.
static _Atomic bool is_starting;
static _Atomic size_t lists, lacking;
// What pairs with a destructor were worth to who got them, by its tag: below 0, no more of them are given away, until others are none either.
static _Atomic int worth[SYMBOLS + 1];
// After how many times as many refusals as the first time that is forgotten.
static _Atomic int patience = 1;
// Whether workers take the oldest one first of the pairs that a slice made, where they are several.
static _Atomic bool is_reversed;
#define LOOK_AT(what) atomic_load_explicit(&(what), memory_order_relaxed)
#define SET(what, value) atomic_store_explicit(&(what), (value), memory_order_relaxed)

// Nobody keeps the lock for as long as it takes to fall asleep and to wake up.
static void enter(void) {
  for (int k = 0; pthread_mutex_trylock(&team.lock); k++) {
    if (k < SPIN) PAUSE;
    else sched_yield();
  }
}

static void leave(void) { pthread_mutex_unlock(&team.lock); }

static int64_t nanoseconds(void) {
  struct timespec now;
  clock_gettime(CLOCK_MONOTONIC, &now);
  return (int64_t)now.tv_sec * 1000000000 + now.tv_nsec;
}

// ---- Processors. A kernel may leave a thread that begins, or that is woken, on the processor of the one that calls it for many milliseconds. So no
// worker may be on a processor that another one has.

#ifdef __linux__
static cpu_set_t processors;

static void find_processors(void) {
  if (sched_getaffinity(0, sizeof processors, &processors)) CPU_ZERO(&processors);
}

static void may_be_anywhere(struct worker *w) { pthread_setaffinity_np(w->thread, sizeof processors, &processors); }

// Each worker that is to work may be on all processors but those of the others; the ones from this number on begin, and get one first. (locked)
static void spread(int first) {
  if (CPU_COUNT(&processors) < team.active) return;
  cpu_set_t free = processors;
  for (int k = 0; k < first; k++) CPU_CLR(workers[k].processor, &free);
  for (int k = first, at = 0; k < team.active; k++, at++) {
    while (at < CPU_SETSIZE && !CPU_ISSET(at, &free)) at++;
    if (at == CPU_SETSIZE) return;
    workers[k].processor = at;
  }
  for (int k = 0; k < team.active; k++) {
    cpu_set_t own = processors;
    for (int j = 0; j < team.active; j++)
      if (j != k) CPU_CLR(workers[j].processor, &own);
    pthread_setaffinity_np(workers[k].thread, sizeof own, &own);
  }
}

// A worker that isn't to work yet may be anywhere but where the others are. (locked)
static void keep_off(struct worker *w) {
  cpu_set_t own = processors;
  for (int k = 0; k < team.active; k++) CPU_CLR(workers[k].processor, &own);
  if (CPU_COUNT(&own)) pthread_setaffinity_np(w->thread, sizeof own, &own);
}

static void see_processor(struct worker *w) {
  int now = sched_getcpu();
  if (now >= 0) w->processor = now;
}
#else
static void find_processors(void) {}
static void may_be_anywhere(struct worker *w) { (void)w; }
static void spread(int first) { (void)first; }
static void see_processor(struct worker *w) { (void)w; }
static void keep_off(struct worker *w) { (void)w; }
#endif

// ---- Free cells that go from one worker to another. What is called with the lock has (locked) behind it.

static void give_lists(struct worker *w) { // (locked)
  for (int size = 1; size <= MOST_ARITY; size++) {
    struct lists *of = &team.cells[size];
    if (!w->free[size]) continue;
    of->items = grown(of->items, &of->room, of->count + 1, sizeof *of->items);
    of->items[of->count++] = w->free[size];
    w->free[size] = 0;
    SET(lists, LOOK_AT(lists) + 1);
  }
}

// Takes a list of each arity of which it has no free cell.
static void take_lists(struct worker *w) {
  if (LOOK_AT(lists)) {
    enter();
    for (int size = 1; size <= MOST_ARITY; size++) {
      struct lists *of = &team.cells[size];
      if (w->free[size] || !of->count) continue;
      w->free[size] = of->items[--of->count];
      SET(lists, LOOK_AT(lists) - 1);
    }
    leave();
  }
  atomic_fetch_add_explicit(&lacking, 1, memory_order_relaxed);
}

// ---- Letters.

// Nothing else than the wire itself.
static word wire_here(struct worker *w, word wire) {
  (void)w;
  return wire;
}

static void deliver(struct worker *to, const word *words, size_t count) { // (locked)
  put_words(&to->in, words, count);
  SET(to->letters, to->in.count);
  if (to->is_idle) pthread_cond_signal(&to->called);
}

// The letters that a worker wrote, to those that they are for. (locked)
static void post(struct worker *w) {
  for (size_t k = 0; k < w->out.count;) {
    word head = w->out.items[k++];
    deliver(&workers[TAG(head)], w->out.items + k, head >> 16);
    k += head >> 16;
  }
  w->out.count = 0;
}

static void swap(struct words *one, struct words *other) {
  struct words kept = *one;
  *one = *other;
  *other = kept;
}

// Reads the letters that came.
static void read_letters(struct worker *w) {
  if (!LOOK_AT(w->letters)) return;
  w->read.count = 0;
  enter();
  swap(&w->in, &w->read);
  SET(w->letters, 0);
  leave();
  read_words(w, w->read.items, w->read.count);
}

// ---- Workers that begin, wait, part and end.

// Whether a worker lacks pairs, and nobody is about to give it some. (locked)
static bool is_hungry(const struct worker *w) { return w->is_idle && !w->in.count && !w->is_promised; }

static void tell_hungry(void) { // (locked)
  int count = 0;
  for (int k = 0; k < team.size; k++) count += is_hungry(&workers[k]);
  SET(hungry, count);
}

// Interactions that a worker may do, of those that are left. (locked)
static void draw(struct worker *w) {
  const int64_t most = 1 << 20;
  int64_t more = team.left / (2 * team.size) + 1;
  if (more > most) more = most;
  if (more > team.left) more = team.left;
  w->fuel += more;
  team.left -= more;
}

// Interactions that it won't do are there for others. (locked)
static void give_back(struct worker *w) {
  if (!w->fuel) return;
  team.left += w->fuel;
  w->fuel = 0;
  for (int k = 0; k < team.size; k++)
    if (workers[k].is_idle && has_pairs(&workers[k])) pthread_cond_signal(&workers[k].called);
}

static void forget_worth(void) {
  for (int tag = 0; tag <= SYMBOLS; tag++) SET(worth[tag], 1);
}

// Gives some of the oldest pairs, which tend to be the ones with most work, to who has none: such as have the same destructor, the one
// that was worth most.
static void give_pairs(struct worker *w) {
  size_t pairs = (size_t)(w->sp - w->bottom) / 2, most = pairs < 8 ? 1 : pairs / 4, first = 0, given = 0, agents = 0;
  size_t looked_at = pairs < FIRST_PAIRS ? pairs : FIRST_PAIRS;
  int best = -1;
  for (size_t k = 0; k < looked_at; k++) {
    int value = LOOK_AT(worth[TAG(w->bottom[2 * k + 1])]);
    if (value <= best) continue;
    best = value;
    first = k;
  }
  if (best < 0) {
    if (++w->refused >= REFUSED_TIMES * LOOK_AT(patience)) {
      forget_worth();
      w->refused = 0;
      if (LOOK_AT(patience) < MOST_PATIENCE) SET(patience, 2 * LOOK_AT(patience));
    }
    // They are done now, so that others are the oldest ones.
    if (pairs > FIRST_PAIRS) {
      need_pairs(w, FIRST_PAIRS);
      memcpy(w->sp, w->bottom, 2 * FIRST_PAIRS * sizeof(word));
      w->bottom += 2 * FIRST_PAIRS;
      w->sp += 2 * FIRST_PAIRS;
    }
    return;
  }
  uint16_t tag = TAG(w->bottom[2 * first + 1]);
  enter();
  struct worker *to = 0;
  size_t most_agents = team.has_paid ? MOST_IN_GIFT : MOST_IN_TRIAL;
  for (int k = 0; k < team.size && !to; k++)
    if (is_hungry(&workers[k])) to = &workers[k];
  if (to) {
    to->is_promised = true;
    if (most > to->portion) most = to->portion;
  }
  tell_hungry();
  leave();
  if (!to) return;
  w->gift.count = 0;
  for (size_t k = first; k < pairs && given < most && agents < most_agents; k++) {
    word *pair = w->bottom + 2 * k, *front = w->bottom + 2 * given, own[] = {pair[0], pair[1]};
    if (TAG(own[1]) != tag) continue;
    pair[0] = front[0];
    pair[1] = front[1];
    agents += put_pair(w, &w->gift, own, best > 1 ? MOST_IN_PAIR : MOST_IN_FIRST);
    given++;
  }
  w->bottom += 2 * given;
  w->cost += (int64_t)(LETTER_COSTS * given);
  enter();
  if (!to->in.count) swap(&to->in, &w->gift);
  deliver(to, w->gift.items, w->gift.count);
  to->gift_tag = tag;
  to->gift_agents = (int64_t)agents;
  to->is_promised = false;
  leave();
}

// A worker has no pairs any more: what those that it was given were worth. (locked)
static void judge_gift(struct worker *w) {
  int64_t lasted = w->done - w->given_at;
  w->given_at = w->done;
  if (!w->gift_tag) return;
  // What it cost to bring them counts now, with what they were worth.
  w->cost += AGENT_COSTS * w->gift_agents;
  int value = LOOK_AT(worth[w->gift_tag]);
  if (lasted >= LASTS_LONG) SET(patience, 1);
  bool was_worth = lasted >= PAIR_LASTS + AGENT_LASTS * w->gift_agents;
  SET(worth[w->gift_tag], was_worth ? value < 3 ? value + 2 : 4 : value > -1 ? value - 1 : -1);
  w->portion = lasted >= LASTS ? (w->portion + 1) / 2 : w->portion < MOST_GIVEN ? 2 * w->portion : MOST_GIVEN;
  w->gift_tag = 0;
}

// The clock, but for the time that the first worker was held up. (locked)
static int64_t time_to_work(void) { return nanoseconds() - team.held_up; }

// The first worker did so many interactions since that was seen last. (locked)
static void see_hold_up(int64_t done) {
  int64_t now = nanoseconds(), time = now - team.seen_at, usual = (int64_t)((double)done / team.alone_speed);
  if (time > SLOW * usual + (team.has_paid ? HELD_UP : HELD_UP_IN_TRIAL)) team.held_up += time - usual;
  team.seen_at = now;
}

static void account(struct worker *w) { // (locked)
  if (w == workers) see_hold_up(w->done - w->looked);
  team.done += w->done - w->looked;
  team.total += w->done - w->looked;
  if (w != workers) team.by_others += w->done - w->looked;
  team.cost += w->cost;
  w->looked = w->done;
  w->cost = 0;
}

static void *work(void *given);

// So many workers begin. (locked)
static void begin(int count) {
  int before = team.active;
  team.active = count < team.size ? count : team.size;
  if (team.most < team.active) team.most = team.active;
  spread(before);
  team.back_from = time_to_work();
  team.back_done = team.total;
  SET(is_parting, false);
  pthread_cond_broadcast(&team.parted);
#ifdef STRESS
  // A small net would be reduced before they are there.
  while (LOOK_AT(parked) > team.size - team.active && !LOOK_AT(is_parting) && !LOOK_AT(is_done)) {
    leave();
    sched_yield();
    enter();
  }
#endif
}

// Whether all together do so many times by the clock what one did alone, as far as that was seen after so long. (locked)
static bool are_faster(double times, int64_t after) {
  int64_t now = time_to_work(), time = now - team.back_from, done = team.total - team.back_done;
  if (time < after) return true;
  team.back_from = now;
  team.back_done = team.total;
  return (double)done >= times * team.alone_speed * (double)time;
}

// How many nanoseconds fewer one worker alone would have taken since others began. (locked)
static int64_t lost(void) { return time_to_work() - team.begun_at - (int64_t)((double)(team.total - team.begun_done) / team.alone_speed); }

// Whether a trial is in vain, as far as the clock tells. (locked)
static bool is_vain(void) {
  if (team.has_paid) return false;
  return time_to_work() - team.begun_at >= MOST_UNPAID || lost() >= (team.done < 2 * PAYS * team.cost ? MOST_LOST : 3 * MOST_LOST);
}

// Whether it pays that all work together; else all but the first are to park. (locked)
static void judge(void) {
  if (LOOK_AT(is_parting)) return;
  // Where it never paid since the others began, little is enough to see that it doesn't; later they may have come to a stop.
  bool is_much = team.done >= (team.has_paid ? WINDOW : WINDOW / 2) || team.cost >= (team.has_paid ? WINDOW / 2 : WINDOW / 20);
  bool is_failed = is_vain();
  if (!is_much && !is_failed && !(team.has_paid && nanoseconds() - team.judged_at >= LONG_UNJUDGED)) return;
  team.judged_at = nanoseconds();
  bool pays = !is_failed && team.done >= PAYS * team.cost;
#ifdef STRESS
  static int judgements;
  pays = ++judgements % 8 > 0;
  team.by_others = team.done;
#endif
  // Letters and waiting may cost less than they tell where many work; and cells that others wrote cost more.
  if (team.has_paid && team.active == team.size) pays = pays ? are_faster(1.1, LOOKED_BACK) : are_faster(1.25, LOOKED_BACK_SOON);
  team.has_paid = pays && (team.has_paid || team.by_others >= team.done / 8);
  if (pays) {
    // What was before counts too, by half: what is given costs at once, and is done for some while.
    team.done /= 2;
    team.by_others /= 2;
    team.cost /= 2;
    if (!team.has_paid) return;
    team.paid_before = true;
    SET(is_reversed, true);
    if (team.size < worker_count && !team.is_asked) {
      team.is_asked = true;
      SET(is_starting, true);
    } else if (team.active < team.size && !LOOK_AT(is_starting)) begin(team.size);
    return;
  }
  SET(is_parting, true);
  for (int k = 0; k < team.size; k++) pthread_cond_signal(&workers[k].called);
}

// All others are parked or have ended, or never were to work: all that they have is the first worker's, and no wire leads elsewhere. (locked)
static void come_together(struct worker *w) {
  for (bool is_more = true; is_more;) {
    is_more = false;
    for (int k = 0; k < team.most; k++) {
      struct worker *other = &workers[k];
      post(other);
      if (!other->in.count) continue;
      is_more = true;
      read_words(other, other->in.items, other->in.count);
      other->in.count = 0;
      SET(other->letters, 0);
    }
  }
  for (int k = 0; k < team.most; k++)
    while (workers[k].end_count) {
      struct worker *other = &workers[k];
      struct stub *s = other->ends[other->end_count - 1];
      word here = s->here, wire = s->wire;
      struct port port = s->port;
      free_end(other, s);
      // What is at the wire's home is joined to it there.
      for (struct worker *home;; ) {
        home = &workers[HOME(wire)];
        word there = STUB(wire)->here;
        if (TAG(there) & SHARED) {
          free_stub(home, STUB(wire));
          wire = there;
          continue;
        }
        if (TAG(here)) come(home, wire, here, port);
        else take_in(home, AT(here), wire, opposite(port));
        break;
      }
    }
  for (int k = 1; k < team.most; k++) {
    struct worker *other = &workers[k];
    size_t words = (size_t)(other->sp - other->bottom);
    need_pairs(w, words / 2);
    // They were given as the oldest ones, and are that again: so the order of one worker goes on, which may need much less memory.
    if (words) {
      memmove(w->bottom + words, w->bottom, (size_t)(w->sp - w->bottom) * sizeof(word));
      memcpy(w->bottom, other->bottom, words * sizeof(word));
    }
    w->sp += words;
    other->sp = other->bottom = other->stack;
    give_back(other);
    give_lists(other);
  }
  w->fuel += team.left;
  team.left = 0;
  w->is_alone = true;
}

// Where nobody does anything, somebody is called who could; or all have ended. (locked)
static void see_end(struct worker *w) {
  if (team.idle + LOOK_AT(parked) < team.size) return;
  bool is_over = true;
  w->cost += ALL_WAITING_COSTS;
  for (int k = 0; k < team.size; k++) {
    bool has_any = workers[k].in.count || (has_pairs(&workers[k]) && team.left);
    if (has_any) pthread_cond_signal(&workers[k].called);
    is_over &= !has_any;
  }
  SET(is_done, is_over);
}

// What it has is left to the first worker, and it waits until it is to begin. (locked)
static void park(struct worker *w) {
  account(w);
  give_back(w);
  SET(parked, LOOK_AT(parked) + 1);
  pthread_cond_signal(&workers[0].called);
  see_end(w);
  while ((LOOK_AT(is_parting) || w->number >= team.active) && !LOOK_AT(is_done)) pthread_cond_wait(&team.parted, &team.lock);
  SET(parked, LOOK_AT(parked) - 1);
  w->looked = w->done;
  w->cost = 0;
}

// The thread of the next worker starts. Where it can't, that is no fault: then there are fewer workers. Once it pays, each new one starts the one after
// it, and the last one lets all begin.
static void start_next(struct worker *w) {
  enter();
  struct worker *next = &workers[team.size];
  if (team.size < worker_count && !LOOK_AT(is_done) && !pthread_create(&next->thread, 0, work, next)) {
    pthread_detach(next->thread);
    see_processor(w);
    keep_off(next);
    team.size++;
  } else if (LOOK_AT(is_starting)) {
    SET(is_starting, false);
    if (team.has_paid && !LOOK_AT(is_parting) && team.active < team.size) begin(team.size);
  }
  leave();
}

// The first memory that a worker will need is touched before it is to work.
static void make_ready(struct worker *w) {
  new_chunk(w, 0);
  for (word *at = w->bump; at < w->bump + READY_WORDS; at += 256) *at = 0;
  need_pairs(w, (size_t)(SLICE + 1) * PUSHES);
  new_stubs(w);
}

// Another worker begins, and where that pays, all.
static void begin_others(struct worker *w) {
  enter();
  see_processor(w);
  team.begun_done = team.total;
  team.seen_at = nanoseconds();
  team.begun_at = time_to_work();
  team.has_paid = team.paid_before = false;
  team.active = 1;
  begin(2);
  team.left = w->fuel;
  w->fuel = 0;
  draw(w);
  w->is_alone = false;
  w->looked = w->done;
  w->cost = team.done = team.by_others = team.cost = 0;
  leave();
}

// The first worker goes on alone.
static void begin_alone(struct worker *w) { // (locked)
  come_together(w);
  may_be_anywhere(w);
  // Where it never paid in this order, the next time it is the other one.
  if (!team.paid_before) SET(is_reversed, !LOOK_AT(is_reversed));
  int64_t now = nanoseconds(), loss = lost();
  if (loss < -GAINED) team.alone_for = LEAST_ALONE;
  team.begin_at = now + (REGAINED * loss > team.alone_for ? REGAINED * loss : team.alone_for);
  team.alone_from = now;
  team.alone_done = w->done;
  team.alone_for = 3 * team.alone_for < MOST_ALONE ? 3 * team.alone_for : MOST_ALONE;
}

// One worker alone sees how fast it is, and whether another one is to begin, whose thread starts before.
static void look_around_alone(struct worker *w) {
  int64_t now = nanoseconds();
  double speed = (double)(w->done - team.alone_done) / (double)(now - team.alone_from + 1);
  // It may have been held up; if it is as slow once more, the net has become slower.
  bool is_slow = team.alone_speed > SLOW * speed;
  if (!is_slow || team.was_slow) team.alone_speed = team.alone_speed > 0 ? (team.alone_speed + speed) / 2 : speed;
  team.was_slow = is_slow;
  team.alone_from = now;
  team.alone_done = w->done;
  size_t pairs = (size_t)(w->sp - w->bottom) / 2;
  team.many_times = pairs < MANY_PAIRS ? 0 : team.many_times + 1;
  if (pairs < LEAST_PAIRS) return;
  int64_t left = team.begin_at + (team.many_times < MANY_TIMES ? FEW_LATER : 0) - now;
  if (team.size == 1 && left <= STARTS_BEFORE) {
    start_next(w);
    if (team.size == 1) team.begin_at = INT64_MAX / 2;
#ifdef STRESS
    while (LOOK_AT(parked) < team.size - 1) sched_yield();
#endif
  }
  if (left <= 0 && team.size > 1 && LOOK_AT(parked) == team.size - 1) begin_others(w);
}

// Between two slices.
static void look_around(struct worker *w) {
  if (worker_count == 1) return;
  if (w->is_alone) {
    if (w->done - team.alone_done >= LOOKED_ALONE) look_around_alone(w);
    return;
  }
  if (w->number == 1 && LOOK_AT(is_starting)) start_next(w);
  look_at_ends(w, LOOKED_AT);
  read_letters(w);
  bool is_lacking = LOOK_AT(lacking) != w->lacked;
  if (w->out.count || w->done - w->looked >= (LOOK_AT(team.has_paid) ? ACCOUNTED : ACCOUNTED_IN_TRIAL) || is_lacking) {
    enter();
    post(w);
    account(w);
    judge();
    if (is_lacking) give_lists(w);
    w->lacked = LOOK_AT(lacking);
    leave();
  }
  if (LOOK_AT(hungry) > 0 && !LOOK_AT(is_parting) && (size_t)(w->sp - w->bottom) / 2 >= LEAST_PAIRS) give_pairs(w);
}

// Looks so many times for what may call it, and lets others go first each time if it is to.
static void look_out(const struct worker *w, int times, bool is_parted, bool is_to_yield) {
  for (int k = 0; k < times && !LOOK_AT(w->letters) && LOOK_AT(is_parting) == is_parted && !LOOK_AT(is_done); k++) {
    if (is_parted && LOOK_AT(parked) == team.size - 1) return;
    if (is_to_yield) sched_yield();
    else PAUSE;
  }
}

// Whether a worker that waits has a reason to look further. (locked)
static bool is_called(const struct worker *w, bool is_parted) {
  bool is_gathered = is_parted && LOOK_AT(parked) == team.size - 1;
  return w->in.count || LOOK_AT(is_done) || (has_pairs(w) && team.left) || LOOK_AT(is_parting) != is_parted || is_gathered;
}

// Whether a worker has something to do, for which it waits; if not, all have ended.
static bool find_work(struct worker *w) {
  if (has_pairs(w) && w->fuel && (w->is_alone || !LOOK_AT(is_parting))) return true;
  if (worker_count == 1) return false;
  if (!w->is_alone) {
    look_at_all_ends(w);
    read_letters(w);
  }
  bool found = false;
  enter();
  while (!LOOK_AT(is_done)) {
    post(w);
    if (w->is_alone) {
      // It has all pairs and all interactions.
      found = has_pairs(w) && w->fuel;
      SET(is_done, !found);
      break;
    }
    bool is_parted = LOOK_AT(is_parting);
    if (w != workers && (is_parted || w->number >= team.active)) {
      park(w);
      continue;
    }
    if (is_parted && LOOK_AT(parked) == team.size - 1) {
      begin_alone(w);
      continue;
    }
    if (has_pairs(w) && !w->fuel && team.left) draw(w);
    found = has_pairs(w) && w->fuel;
    if (found) break;
    if (w->in.count) {
      leave();
      read_letters(w);
      look_at_all_ends(w);
      enter();
      continue;
    }
    account(w);
    judge();
    if (LOOK_AT(is_parting) && !is_parted) continue;
    give_back(w);
    judge_gift(w);
    w->is_idle = true;
    team.idle++;
    see_end(w);
    tell_hungry();
    if (!LOOK_AT(is_done)) {
#ifndef STRESS
      if (!has_pairs(w)) {
        leave();
        look_out(w, SPIN, is_parted, false);
        enter();
      }
#endif
      if (!is_called(w, is_parted)) {
        w->cost += w != workers ? WAITING_COSTS : team.has_paid ? FIRST_WAITING_COSTS : EARLY_WAITING_COSTS;
        leave();
        look_out(w, YIELDS, is_parted, true);
        enter();
        if (!is_called(w, is_parted)) pthread_cond_wait(&w->called, &team.lock);
      }
    }
    w->is_idle = false;
    if (w == workers) team.seen_at = nanoseconds();
    team.idle--;
    tell_hungry();
  }
  if (LOOK_AT(is_done)) {
    for (int k = 0; k < team.size; k++) pthread_cond_signal(&workers[k].called);
    pthread_cond_broadcast(&team.parted);
  }
  see_processor(w);
  leave();
  return found;
}

// The pairs beyond so many words are put into the opposite order, if they are few.
static void reverse(struct worker *w, ptrdiff_t words) {
  ptrdiff_t made = w->sp - w->bottom - words;
  if (IS_QUEUE || made < 4 || made > 2 * MOST_REVERSED) return;
  for (word *low = w->bottom + words, *high = w->sp - 2; low < high; low += 2, high -= 2) {
    word one = low[0], other = low[1];
    low[0] = high[0];
    low[1] = high[1];
    high[0] = one;
    high[1] = other;
  }
}

static void *work(void *given) {
  struct worker *w = given;
  if (w != workers) {
    if (w->number > 1 || STARTS_ALL) start_next(w);
    make_ready(w);
  }
  while (find_work(w)) {
    int64_t slice = w->fuel < SLICE ? w->fuel : SLICE;
    size_t words = (size_t)slice * WORDS;
    if ((size_t)(w->top - w->bump) < words) {
      // Cells that others freed come first, but not before it is worth it: they have neighbours that others write to.
      if (worker_count > 1 && w->chunk_words >= SPARE_WORDS) take_lists(w);
      new_chunk(w, words);
    }
    need_pairs(w, (size_t)(slice + 1) * PUSHES);
    // A slice takes the newest pair at least, so what it leaves comes behind the others.
    ptrdiff_t others = w->sp - w->bottom - 2;
    int64_t done = slice - reduce(w, slice);
    if (!w->is_alone && LOOK_AT(is_reversed)) reverse(w, others);
    w->fuel -= done;
    w->done += done;
    look_around(w);
  }
  return 0;
}

// Interacts until no pair is left, at most so often: how often it did. What is left is the first worker's.
static int64_t run(int64_t limit) {
  struct worker *w = &workers[0];
  team.size = team.active = team.most = 1;
  find_processors();
  team.alone_for = LEAST_ALONE;
  SET(is_parting, true);
  team.alone_from = nanoseconds();
  team.begin_at = team.alone_from + FIRST_ALONE;
  forget_worth();
  for (int k = 0; k < worker_count; k++) {
    workers[k].number = k;
    workers[k].portion = 1;
    if (pthread_cond_init(&workers[k].called, 0)) out_of_memory();
  }
  w->thread = pthread_self();
  w->fuel = limit;
  w->is_alone = true;
  work(w);
  // The threads end by themselves.
  enter();
  come_together(w);
  if (team.size > 1) may_be_anywhere(w);
  int64_t sum = 0;
  for (int k = 0; k < team.size; k++) sum += workers[k].done;
  leave();
  return sum;
}

static _Noreturn void quit(int status) { exit(status); }

// Whichever worker comes first says it.
static _Noreturn void out_of_memory(void) {
  static pthread_mutex_t first = PTHREAD_MUTEX_INITIALIZER;
  pthread_mutex_lock(&first);
  put("memory\n");
  flush();
  _exit(MEMORY);
}
