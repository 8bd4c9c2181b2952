// ---- Several processes, by MPI, in place of several workers. Each is one worker, with memory of its own; pairs and letters go between them as
// words (to_c_wires.c). Process 0 has the net at first, and counts what the others report: so it knows when all are done, and whether it pays.
#include <mpi.h>

#ifdef STRESS
enum { FIRST_ALONE = 0, LEAST_ALONE = 40, MOST_ALONE = 400, WINDOW = 60, LOOKED_AT = 2, LEAST_PAIRS = 1, MOST_GIVEN = 3 };
enum { FULL_POST = 4, POLLED = 1, REPORTED = 7 };
#else
// In interactions: a run begins in process 0; where within a window it doesn't pay, that goes on alone for three times as long each time.
enum { FIRST_ALONE = 4000000, LEAST_ALONE = 16000000, MOST_ALONE = 1 << 30, WINDOW = 4000000 };
// A process looks at so many stubs between two slices. It gives pairs away where it has so many, and so many at a time at most.
enum { LOOKED_AT = 64, LEAST_PAIRS = 2, MOST_GIVEN = 256 };
// Letters are sent together, once they have so many words. A process looks for letters after so many interactions, and reports after so many.
enum { FULL_POST = 8192, POLLED = 30000, REPORTED = 1000000 };
#endif
// What a message costs, in interactions, and each word of it. All together have to do so many times as much as messages cost.
enum { MESSAGE_COSTS = 3000, WORD_COSTS = 2, PAYS = 4 };
// Who comes back for pairs sooner than after so many interactions gets more of them.
enum { LASTS = 100000 };

// The kinds of messages. Letters, what is asked for and given: pairs, and that there are none; interactions; reports, and that one is wanted; that
// all work, or process 0 alone; that all send what they have to process 0; that all end; and that memory ran out.
enum { LETTERS, HUNGRY, NONE, FUEL, REPORT, ASKED, TOGETHER, ALONE, GATHER, GATHERED, END, NO_MEMORY };

// What process 0 knows of one: whether it has nothing to do, or only lacks interactions; messages with letters that it sent and received.
struct report { int64_t is_idle, lacks, sent, received, done, cost, returned, wave; };
enum { REPORT_WORDS = sizeof(struct report) / sizeof(int64_t) };

static struct {
  int size;
  bool is_together, is_over, is_gathering;
  // Of each process the letters that wait for it.
  struct words *posts;
  // Messages on their way, which keep their words until they have left.
  struct sent { MPI_Request request; word *words; } *on_way;
  size_t on_way_count, on_way_room;
  // Words of the message that is read.
  word *read;
  size_t read_room;
  struct report own;
  // Whom it asks for pairs next, and whether one was asked; when it is to look for messages and to report.
  int next;
  bool is_asking;
  int64_t polled, reported, told_done;
  // Of process 0: what the others reported, the interactions that nobody has drawn, and the wave of questions that is on.
  struct report *reports;
  int64_t left, wave, wave_received, since_done, since_cost, begin_at, alone_for;
  int gathered;
  // While all is gathered: the stub of process 0 for each wire that has its home elsewhere.
  struct wire { word wire, own; } *wires;
  size_t wire_count, wire_room;
  // For the figures: letters, messages and bytes that were sent.
  int64_t letters, messages, bytes;
} team;

// Of all processes, once that is gathered; and whether their figures are wanted on standard error.
static int64_t interactions;
static bool tells;

static struct worker *me(void) { return &workers[0]; }

// ---- Messages.

static void send_words(int to, int kind, word *words, size_t count) {
  team.on_way = grown(team.on_way, &team.on_way_room, team.on_way_count + 1, sizeof *team.on_way);
  struct sent *sent = &team.on_way[team.on_way_count++];
  sent->words = words;
  if (count > INT32_MAX) out_of_memory();
  MPI_Isend(words, (int)count, MPI_UINT64_T, to, kind, MPI_COMM_WORLD, &sent->request);
  team.messages++;
  team.bytes += (int64_t)(count * sizeof(word));
}

static void tell(int to, int kind, int64_t number) {
  word *words = malloc(sizeof *words);
  if (!words) out_of_memory();
  *words = (word)number;
  send_words(to, kind, words, 1);
}

static void tell_others(int kind) {
  for (int k = 1; k < team.size; k++) tell(k, kind, 0);
}

// The words of messages that have left are free.
static void clear_sent(void) {
  for (size_t k = 0; k < team.on_way_count;) {
    int has_left = 0;
    MPI_Test(&team.on_way[k].request, &has_left, MPI_STATUS_IGNORE);
    if (has_left) {
      free(team.on_way[k].words);
      team.on_way[k] = team.on_way[--team.on_way_count];
    } else k++;
  }
}

// Sends the letters to a process that are as many words at least.
static void send_post(struct worker *w, int to, int kind, size_t least) {
  struct words *post = &team.posts[to];
  if (post->count < least) return;
  w->cost += MESSAGE_COSTS + WORD_COSTS * (int64_t)post->count;
  if (kind == LETTERS) team.own.sent++;
  send_words(to, kind, post->items, post->count);
  *post = (struct words){0, 0, 0};
}

static void post_all(struct worker *w, size_t least) {
  for (size_t k = 0; k < w->out.count;) {
    word head = w->out.items[k++];
    put_words(&team.posts[TAG(head)], w->out.items + k, head >> 16);
    k += head >> 16;
    team.letters++;
  }
  w->out.count = 0;
  for (int k = 0; k < team.size; k++) send_post(w, k, LETTERS, least);
}

// ---- What comes. While all is gathered, each wire gets a home in process 0.

static size_t wire_place(word wire) {
  size_t k = (size_t)(wire * 0x9e3779b97f4a7c15u >> 20) & (team.wire_room - 1);
  while (team.wires[k].wire && team.wires[k].wire != wire) k = (k + 1) & (team.wire_room - 1);
  return k;
}

static word wire_here(struct worker *w, word wire) {
  if (!team.is_gathering || is_home(w, wire)) return wire;
  if (2 * team.wire_count >= team.wire_room) {
    struct wire *wires = team.wires;
    size_t room = team.wire_room;
    team.wire_room = room ? 2 * room : 1024;
    if (!(team.wires = calloc(team.wire_room, sizeof *team.wires))) out_of_memory();
    for (size_t k = 0; k < room; k++)
      if (wires[k].wire) team.wires[wire_place(wires[k].wire)] = wires[k];
    free(wires);
  }
  struct wire *at = &team.wires[wire_place(wire)];
  if (!at->wire) {
    *at = (struct wire){wire, new_stub(w, 0, (struct port){0, 0, 0})->wire};
    team.wire_count++;
  }
  return at->own;
}

// ---- Reports. Process 0 has one of its own.

static void take_report(int from, struct report report) {
  team.left += report.returned;
  team.since_done += report.done;
  team.since_cost += report.cost;
  if (!report.wave) report.wave = team.reports[from].wave;
  team.reports[from] = report;
}

static void report(struct worker *w, int64_t wave) {
  team.own.is_idle = !has_pairs(w) || !w->fuel;
  team.own.lacks = has_pairs(w) && !w->fuel;
  team.own.done = w->done - team.told_done;
  team.own.cost = w->cost;
  team.own.wave = wave;
  team.own.returned = 0;
  if (team.own.is_idle) {
    team.own.returned = w->fuel;
    w->fuel = 0;
  }
  team.told_done = w->done;
  w->cost = 0;
  team.reported = w->done + REPORTED;
  if (!w->number) take_report(0, team.own);
  else {
    word *words = malloc(sizeof team.own);
    if (!words) out_of_memory();
    memcpy(words, &team.own, sizeof team.own);
    send_words(0, REPORT, words, REPORT_WORDS);
  }
}

// ---- Pairs that are given away.

static void give_pair(struct worker *w, int to, const word *pair, size_t most) {
  put_pair(w, &team.posts[to], pair, most);
  team.letters++;
}

// Without interactions that it may do, a process gives none: it has said that it is idle, and who is idle sends no letters.
static void give_pairs(struct worker *w, int to, size_t most) {
  size_t pairs = (size_t)(w->sp - w->bottom) / 2;
  if (!team.is_together || !w->fuel || pairs < LEAST_PAIRS) {
    tell(to, NONE, 0);
    return;
  }
  if (most > pairs / 4) most = pairs < 4 ? 1 : pairs / 4;
  for (; most; most--, w->bottom += 2) give_pair(w, to, w->bottom, MOST_IN_PAIR);
  send_post(w, to, LETTERS, 1);
}

// While process 0 is alone, all pairs are its own, with all that hangs at them.
static void hand_in(struct worker *w, int kind) {
  for (; has_pairs(w); w->bottom += 2) give_pair(w, 0, w->bottom, SIZE_MAX);
  w->bottom = w->sp = w->stack;
  send_post(w, 0, kind, 1);
}

// The stub in use after this one, or the first one.
static struct stub *next_stub(struct worker *w, struct stub *s) {
  size_t b = 0;
  if (s) {
    uintptr_t block = (uintptr_t)s / STUB_BLOCK;
    for (b = block_place(w, block); w->blocks[b] != block;) b = (b + 1) & (w->block_room - 1);
  }
  for (; b < w->block_room; b++, s = 0) {
    if (!w->blocks[b]) continue;
    struct stub *block = (struct stub *)(w->blocks[b] * STUB_BLOCK);
    for (s = s ? s + 1 : block; s < block + STUBS; s++)
      if (s->place != UNUSED) return s;
  }
  return 0;
}

// What a process tells of itself at the end.
struct figures { int64_t done, letters, messages, bytes, nanoseconds; };
enum { FIGURES = sizeof(struct figures) / sizeof(int64_t) };

static struct figures own_figures(const struct worker *w) {
  struct timespec now;
  clock_gettime(CLOCK_PROCESS_CPUTIME_ID, &now);
  return (struct figures){w->done, team.letters, team.messages, team.bytes, now.tv_sec * (int64_t)1000000000 + now.tv_nsec};
}

static void take_figures(int number, struct figures f) {
  interactions += f.done;
  if (!tells) return;
  fprintf(stderr, "process %d: %lld interactions, %lld letters, %lld messages, %lld bytes, %.1f ms\n", number, (long long)f.done, (long long)f.letters,
          (long long)f.messages, (long long)f.bytes, (double)f.nanoseconds / 1e6);
}

// All that a process has goes to process 0: pairs, what is left at its stubs, and which wires go on as which.
static void gather(struct worker *w) {
  struct words *post = &team.posts[0];
  for (; has_pairs(w); w->bottom += 2) give_pair(w, 0, w->bottom, SIZE_MAX);
  // A walk may make further stubs, and the table of their blocks anew.
  for (bool is_more = true; is_more;) {
    is_more = false;
    for (struct stub *s = next_stub(w, 0); s; s = next_stub(w, s))
      if (TAG(s->here) && !(TAG(s->here) & SHARED)) {
        word here = s->here;
        s->here = 0;
        put_words(post, (word[]){s->wire, kind_of(s->port)}, 2);
        put_agent(w, post, here, s->port, SIZE_MAX);
        team.letters++;
        is_more = true;
      }
  }
  for (struct stub *s = next_stub(w, 0); s; s = next_stub(w, s)) {
    if (!s->here) continue;
    word next = s->here;
    if (!TAG(next)) {
      // Of two stubs that lead to each other one tells it.
      struct stub *other = STUB(next);
      next = other->wire;
      other->here = 0;
    }
    put_words(post, (word[]){s->wire, 0, next}, 3);
    team.letters++;
  }
  struct figures figures = own_figures(w);
  put_words(post, (word *)&figures, FIGURES);
  send_post(w, 0, GATHERED, 1);
}

// ---- What a process does with a message.

static void take_message(struct worker *w, int from, int kind, const word *words, size_t count) {
  switch (kind) {
  case LETTERS:
    team.own.received++;
    team.is_asking = false;
    read_words(w, words, count);
    break;
  case HUNGRY: give_pairs(w, from, words[0]); break;
  case NONE: team.is_asking = false; break;
  case FUEL: w->fuel += (int64_t)words[0]; break;
  case REPORT: {
    struct report report;
    memcpy(&report, words, sizeof report);
    take_report(from, report);
    break;
  }
  case ASKED:
    if (!team.is_together) hand_in(w, LETTERS);
    look_at_all_ends(w);
    post_all(w, 1);
    report(w, (int64_t)words[0]);
    break;
  case TOGETHER: team.is_together = true; break;
  case ALONE: team.is_together = false; break;
  case GATHER:
    team.is_together = false;
    gather(w);
    break;
  case GATHERED: {
    struct figures figures;
    memcpy(&figures, words + count - FIGURES, sizeof figures);
    read_words(w, words, count - FIGURES);
    take_figures(from, figures);
    team.gathered++;
    break;
  }
  case END: team.is_over = true; break;
  case NO_MEMORY: out_of_memory();
  }
}

// Takes the messages that have come: whether there is perhaps something to do after them.
static bool take_messages(struct worker *w) {
  bool is_new = false;
  for (;;) {
    int is_there = 0, count = 0;
    MPI_Status status;
    MPI_Iprobe(MPI_ANY_SOURCE, MPI_ANY_TAG, MPI_COMM_WORLD, &is_there, &status);
    if (!is_there) break;
    MPI_Get_count(&status, MPI_UINT64_T, &count);
    team.read = grown(team.read, &team.read_room, (size_t)count + 1, sizeof(word));
    MPI_Recv(team.read, count, MPI_UINT64_T, status.MPI_SOURCE, status.MPI_TAG, MPI_COMM_WORLD, MPI_STATUS_IGNORE);
    take_message(w, status.MPI_SOURCE, status.MPI_TAG, team.read, (size_t)count);
    is_new |= status.MPI_TAG == LETTERS || status.MPI_TAG == FUEL || status.MPI_TAG == TOGETHER || status.MPI_TAG == ALONE;
  }
  clear_sent();
  return is_new;
}

static void wait_a_while(int times) {
  struct timespec time = {0, times < 100 ? 0 : times < 200 ? 20000 : 200000};
  if (time.tv_nsec) nanosleep(&time, 0);
}

// ---- Process 0.

// Grants interactions to who lacks them, and looks whether all have ended: when in two waves, of which the second was asked for after the first
// was answered, all were idle, and as many messages had been received in the first as were sent in the second (Mattern).
static bool all_have_ended(struct worker *w) {
  int64_t sent = 0, received = 0;
  bool are_idle = true, have_answered = true;
  report(w, team.wave);
  for (int k = 0; k < team.size; k++) {
    struct report *r = &team.reports[k];
    if (r->lacks && team.left) {
      int64_t most = 1 << 24, more = team.left / (2 * team.size) + 1;
      if (more > most) more = most;
      if (more > team.left) more = team.left;
      team.left -= more;
      r->is_idle = r->lacks = false;
      if (k) tell(k, FUEL, more);
      else w->fuel += more;
    }
    are_idle &= r->is_idle;
    sent += r->sent;
    received += r->received;
    have_answered &= r->wave == team.wave;
  }
  if (!are_idle) {
    team.wave_received = -1;
    return false;
  }
  if (!have_answered) return false;
  if (team.wave_received == sent) return true;
  team.wave_received = received;
  team.wave++;
  for (int k = 1; k < team.size; k++) tell(k, ASKED, team.wave);
  return false;
}

// Whether it pays that all work, or process 0 is to go on alone; and whether the others are to begin.
static void judge(struct worker *w) {
  if (team.size == 1) return;
  if (!team.is_together) {
    if (w->done >= team.begin_at && (size_t)(w->sp - w->bottom) / 2 >= LEAST_PAIRS) {
      team.is_together = true;
      team.since_done = team.since_cost = 0;
      tell_others(TOGETHER);
    }
    return;
  }
  if (team.since_done < WINDOW && team.since_cost < WINDOW / 10) return;
  bool pays = team.since_done >= PAYS * team.since_cost;
#ifdef STRESS
  static int judgements;
  pays = ++judgements % 3 > 0;
#endif
  team.since_done = team.since_cost = 0;
  if (pays) {
    team.alone_for = LEAST_ALONE;
    return;
  }
  team.is_together = false;
  team.begin_at = w->done + team.alone_for;
  team.alone_for = 3 * team.alone_for < MOST_ALONE ? 3 * team.alone_for : MOST_ALONE;
  tell_others(ALONE);
}

// ---- Each process.

static void interact(struct worker *w) {
  int64_t slice = w->fuel < SLICE ? w->fuel : SLICE;
  size_t words = (size_t)slice * WORDS;
  if ((size_t)(w->top - w->bump) < words) new_chunk(w, words);
  need_pairs(w, (size_t)(slice + 1) * PUSHES);
  int64_t done = slice - reduce(w, slice);
  w->fuel -= done;
  w->done += done;
}

// Works until all have ended.
static void serve(struct worker *w) {
  for (int waited = 0; !team.is_over;) {
    if (has_pairs(w) && w->fuel && (team.is_together || !w->number)) {
      if (w->done >= team.polled) {
        team.polled = w->done + POLLED;
        take_messages(w);
        if (w->done >= team.reported) report(w, 0);
        if (!w->number) judge(w);
        post_all(w, FULL_POST);
      }
      interact(w);
      if (w->end_count) look_at_ends(w, LOOKED_AT);
      waited = 0;
      continue;
    }
    // Nothing is to be done here.
    if (waited == 0) {
      if (w->number && !team.is_together) hand_in(w, LETTERS);
      look_at_all_ends(w);
      post_all(w, 1);
      if (w->number) {
        report(w, 0);
        if (w->done - w->given_at < LASTS) w->portion = 2 * w->portion < MOST_GIVEN ? 2 * w->portion : MOST_GIVEN;
        else w->portion = (w->portion + 1) / 2;
        w->given_at = w->done;
      }
    }
    if (!w->number) {
      if (all_have_ended(w)) return;
      judge(w);
      if (has_pairs(w) && w->fuel) continue;
    }
    if (team.is_together && !has_pairs(w) && !team.is_asking && (waited < 4 * team.size || waited % 8 == 0)) {
      team.next = (team.next + 1) % team.size;
      if (team.next == w->number) team.next = (team.next + 1) % team.size;
      if (team.next != w->number) {
        team.is_asking = true;
        tell(team.next, HUNGRY, (int64_t)w->portion);
      }
    }
    if (take_messages(w)) waited = 0;
    else wait_a_while(++waited);
  }
}

static void leave_machines(void) {
  while (team.on_way_count) {
    take_messages(me());
    clear_sent();
  }
  MPI_Finalize();
}

static void start_machines(int *count, char ***words) {
  int number = 0, size = 1;
  MPI_Init(count, words);
  MPI_Comm_rank(MPI_COMM_WORLD, &number);
  MPI_Comm_size(MPI_COMM_WORLD, &size);
  if (size > SHARED) {
    fprintf(stderr, "error: these are more than %d processes\n", SHARED);
    MPI_Abort(MPI_COMM_WORLD, WRONG_WORDS);
  }
  struct worker *w = me();
  w->number = number;
  w->portion = 1;
  team.size = size;
  team.next = number;
  team.alone_for = LEAST_ALONE;
  team.begin_at = FIRST_ALONE;
  team.wave_received = -1;
  tells = getenv("TO_C_FIGURES") != 0;
  team.posts = calloc((size_t)size, sizeof *team.posts);
  team.reports = calloc((size_t)size, sizeof *team.reports);
  if (!team.posts || !team.reports) out_of_memory();
  if (!number) return;
  for (int k = 0; k < size; k++) team.reports[k].is_idle = true;
  serve(w);
  leave_machines();
  exit(SUCCEEDED);
}

// Interacts until no pair is left, at most so often: how often it did. What is left is gathered in process 0.
static int64_t run(int64_t limit) {
  struct worker *w = me();
  team.left = limit;
  for (int k = 1; k < team.size; k++) team.reports[k].is_idle = true;
  if (team.size == 1) {
    w->fuel = limit;
    team.left = 0;
    while (has_pairs(w) && w->fuel) interact(w);
    take_figures(0, own_figures(w));
    return interactions;
  }
  serve(w);
  team.is_gathering = true;
  take_figures(0, own_figures(w));
  // The own stubs of wires whose home is elsewhere, and wires that go on as such, get a home here.
  for (struct stub *s = next_stub(w, 0); s; s = next_stub(w, s))
    if (TAG(s->here) & SHARED) s->here = wire_here(w, s->here);
  while (w->end_count) {
    struct stub *s = w->ends[w->end_count - 1];
    word here = s->here, wire = wire_here(w, s->wire);
    struct port port = s->port;
    free_end(w, s);
    if (TAG(here)) come(w, wire, here, port);
    else take_in(w, AT(here), wire, opposite(port));
  }
  team.gathered = 0;
  tell_others(GATHER);
  while (team.gathered < team.size - 1) take_messages(w);
  return interactions;
}

// The end of process 0, and with it of all.
static _Noreturn void quit(int status) {
  tell_others(END);
  leave_machines();
  exit(status);
}

// Process 0 says it, and ends, upon which mpirun ends all: MPI_Abort would need memory.
static _Noreturn void out_of_memory(void) {
  if (workers[0].number) {
    word none = 0;
    MPI_Send(&none, 1, MPI_UINT64_T, 0, NO_MEMORY, MPI_COMM_WORLD);
    for (;;) pause();
  }
  put("memory\n");
  flush();
  _exit(MEMORY);
}
