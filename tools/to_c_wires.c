// ---- Wires between what two workers hold. Each worker has agents of its own, and all local wires lead from one word of its own to another. A wire
// that leads elsewhere ends here in a stub, as it would in a free end: so no rule knows of it. The wire has a home, the worker that made it, whose
// stub is there as long as the wire. What has come to another's stub is sent home by a letter, and joined there to what is at the home's stub:
// an agent, a port that waits, or nothing, where that end has left too. Then it waits for the second letter, and the wire is gone.

// `here` is what is joined to the stub from inside: a word as at any port; 0 where this end has left its home; or another wire as which this one
// goes on. `port` is what may be there. A stub that isn't its wire's home stands at `place` in a list.
struct stub { word here, wire; struct port port; uint32_t place; };
// A wire in letters: the address of the stub at home, and which worker that is.
#define HOME(wire) ((int)(TAG(wire) & ~SHARED))
#define STUB(wire) ((struct stub *)AT(wire))
// A letter about a wire is that wire, a kind, and an agent of this kind that has come to its other end; or the wire as which it goes on. A letter
// about a pair is 0, the constructor's kind, and both agents. An agent on its way is a word with its tag and, where it has a cell, its symbol from 1
// on; then come the words of its cell, and those of the cells of the agents in it. Where a worker keeps letters to several, each comes behind its
// length and the home that it is for.
#define ON_WAY(agent, symbol) ((word)TAG(agent) | (word)((symbol) + 1) << 16)
// How many agents leave together at most: in a pair, which is to be work for a while, and in another letter. What hangs at them further on stays,
// and who comes to it is sent here.
#ifdef STRESS
enum { MOST_IN_PAIR = 5, MOST_IN_FIRST = 3, MOST_IN_LETTER = 2 };
#else
enum { MOST_IN_PAIR = 1024, MOST_IN_FIRST = 128, MOST_IN_LETTER = 32 };
#endif
// What a letter costs, in interactions, and each agent in it.
enum { LETTER_COSTS = 50, AGENT_COSTS = 2 };
enum { STUBS = 1024, CONSTRUCTOR = 0x8000 };
// The place of a stub that isn't in use.
#define UNUSED UINT32_MAX

static word kind_of(struct port port) { return port.type | (port.constructor ? CONSTRUCTOR : 0); }
static struct port port_of(word kind) { return (struct port){kind & ~(word)CONSTRUCTOR, !!(kind & CONSTRUCTOR), 0}; }
static struct port opposite(struct port port) { return (struct port){port.type, !port.constructor, 0}; }

// ---- Stubs. They lie in blocks that begin at multiples of their size, by which they are known.

_Static_assert((STUBS & (STUBS - 1)) == 0 && (sizeof(struct stub) & (sizeof(struct stub) - 1)) == 0, "blocks of stubs have a power of two as their size");
enum { STUB_BLOCK = STUBS * sizeof(struct stub) };

static size_t block_place(const struct worker *w, uintptr_t block) { return (size_t)(block * 0x9e3779b97f4a7c15u >> 20) & (w->block_room - 1); }

static bool is_stub(const struct worker *w, const word *at) {
  uintptr_t block = (uintptr_t)at / STUB_BLOCK;
  if (block == w->last_block) return true;
  if (w->block_count < 2) return false;
  for (size_t k = block_place(w, block); w->blocks[k]; k = (k + 1) & (w->block_room - 1))
    if (w->blocks[k] == block) return true;
  return false;
}

static void free_stub(struct worker *w, struct stub *s) {
  s->place = UNUSED;
  s->wire = WIRE(w->stubs);
  w->stubs = s;
}

static void new_stubs(struct worker *w) {
  struct stub *block = aligned_alloc(STUB_BLOCK, STUB_BLOCK);
  if (!block || (uintptr_t)(block + STUBS) >> 48) out_of_memory();
  if (2 * w->block_count >= w->block_room) {
    size_t room = w->block_room, more = room ? 2 * room : 16;
    uintptr_t *blocks = w->blocks;
    if (!(w->blocks = calloc(more, sizeof *w->blocks))) out_of_memory();
    w->block_room = more;
    for (size_t j = 0; j < room; j++)
      if (blocks[j]) {
        size_t k = block_place(w, blocks[j]);
        while (w->blocks[k]) k = (k + 1) & (more - 1);
        w->blocks[k] = blocks[j];
      }
    free(blocks);
  }
  w->last_block = (uintptr_t)block / STUB_BLOCK;
  size_t k = block_place(w, w->last_block);
  while (w->blocks[k]) k = (k + 1) & (w->block_room - 1);
  w->blocks[k] = w->last_block;
  w->block_count++;
  for (size_t j = STUBS; j-- > 0;) free_stub(w, &block[j]);
}

static struct stub *new_stub(struct worker *w, word here, struct port port) {
  if (!w->stubs) new_stubs(w);
  struct stub *s = w->stubs;
  w->stubs = STUB(s->wire);
  *s = (struct stub){here, WIRE(s) | SHARED | (word)w->number, port, 0};
  return s;
}

// The stub of a wire whose home is elsewhere.
static struct stub *new_end(struct worker *w, word wire, word here, struct port port) {
  struct stub *s = new_stub(w, here, port);
  w->ends = grown(w->ends, &w->end_room, w->end_count + 1, sizeof *w->ends);
  s->wire = wire;
  s->place = (uint32_t)w->end_count;
  w->ends[w->end_count++] = s;
  return s;
}

static void free_end(struct worker *w, struct stub *s) {
  struct stub *last = w->ends[--w->end_count];
  w->ends[s->place] = last;
  last->place = s->place;
  free_stub(w, s);
}

static bool is_home(const struct worker *w, word wire) { return HOME(wire) == w->number; }

// ---- Agents that leave and come.

static void put_words(struct words *to, const word *items, size_t count) {
  to->items = grown(to->items, &to->room, to->count + count, sizeof(word));
  if (count) memcpy(to->items + to->count, items, count * sizeof(word));
  to->count += count;
}

// The wire that leads from a port of an agent that leaves to this word, at which that is found.
static word wire_to(struct worker *w, word *at, struct port port) {
  if (!is_stub(w, at)) {
    struct stub *s = new_stub(w, WIRE(at), port);
    *at = WIRE(s);
    return s->wire;
  }
  struct stub *s = (struct stub *)at;
  word wire = s->wire;
  if (is_home(w, wire)) s->here = 0;
  else free_end(w, s);
  return wire;
}

// An agent leaves in a letter, and at most so many with it that hang at it: all wires that lead elsewhere get a home, and the cells are free. How
// many leave.
static size_t put_agent(struct worker *w, struct words *to, word agent, struct port port, size_t most) {
  unsigned symbol = symbol_of(agent, port);
  put_words(to, (word[]){AT(agent) ? ON_WAY(agent, symbol) : agent}, 1);
  if (!AT(agent)) return 1;
  for (size_t waiting = 0, taken = 1;; taken++) {
    // Numbers are long chains, on which the loop below takes twice as long.
    for (; symbols[symbol].arity == 1 && taken < most; taken++) {
      word *cell = AT(agent), end = *cell;
      if (!TAG(end) || !AT(end)) break;
      *cell = (word)(uintptr_t)w->free[1];
      w->free[1] = cell;
      symbol = symbol_of(end, symbols[symbol].ports[0]);
      if (to->count == to->room) to->items = grown(to->items, &to->room, to->count + 1, sizeof(word));
      to->items[to->count++] = ON_WAY(end, symbol);
      agent = end;
    }
    const struct port *ports = symbols[symbol].ports;
    size_t arity = symbols[symbol].arity, first = to->count;
    word *cell = AT(agent);
    to->items = grown(to->items, &to->room, first + arity, sizeof(word));
    to->count += arity;
    w->parts = grown(w->parts, &w->part_room, waiting + arity, sizeof *w->parts);
    for (size_t k = arity; k-- > 0;) {
      word end = cell[k];
      if (!TAG(end)) end = wire_to(w, AT(end), ports[k]);
      else if (AT(end)) {
        unsigned inner = symbol_of(end, ports[k]);
        w->parts[waiting++] = (struct part){end, first + k, inner};
        end = ON_WAY(end, inner);
      }
      to->items[first + k] = end;
    }
    *cell = (word)(uintptr_t)w->free[arity];
    w->free[arity] = cell;
    for (; waiting && taken >= most; waiting--) {
      struct part stays = w->parts[waiting - 1];
      to->items[stays.place] = new_stub(w, stays.agent, opposite(symbols[stays.symbol].principal))->wire;
    }
    if (!waiting) return taken;
    struct part next = w->parts[--waiting];
    agent = next.agent;
    symbol = next.symbol;
  }
}

// A pair leaves, and at most so many agents with each of the two. How many leave.
static size_t put_pair(struct worker *w, struct words *to, const word *pair, size_t most) {
  struct port port = {destructor_types[TAG(pair[1]) - 1], 1, 0};
  put_words(to, (word[]){0, kind_of(port)}, 2);
  size_t agents = put_agent(w, to, pair[0], port, most);
  return agents + put_agent(w, to, pair[1], opposite(port), most);
}

// A wire comes to a word at which this is to be found.
static void take_in(struct worker *w, word *at, word wire, struct port port) {
  while (is_home(w, wire)) {
    struct stub *s = STUB(wire);
    word here = s->here;
    if (!here) {
      s->here = WIRE(at);
      s->port = opposite(port);
      *at = WIRE(s);
      return;
    }
    free_stub(w, s);
    if (!(TAG(here) & SHARED)) {
      *at = here;
      if (!TAG(here)) *AT(here) = WIRE(at);
      return;
    }
    wire = here;
  }
  *at = WIRE(new_end(w, wire, WIRE(at), opposite(port)));
}

// A cell, where no rule takes it.
static word *new_cell(struct worker *w, size_t size) {
  word *cell = w->free[size];
  if (cell) w->free[size] = (word *)(uintptr_t)*cell;
  else {
    if ((size_t)(w->top - w->bump) < size) new_chunk(w, size);
    cell = w->bump;
    w->bump += size;
  }
  return cell;
}

// A wire of a letter as it is here.
static word wire_here(struct worker *w, word wire);

// The agent whose words begin here has come, with what hangs at it.
static word take_agent(struct worker *w, const word **words) {
  word whole = *(*words)++, *at = &whole;
  if (!AT(whole)) return whole;
  for (size_t waiting = 0;;) {
    const struct symbol *symbol = &symbols[(*at >> 16) - 1];
    // As above.
    for (word end = **words; symbol->arity == 1 && !(TAG(end) & SHARED) && AT(end); end = **words) {
      word *cell = new_cell(w, 1);
      *at = WIRE(cell) | TAG(*at);
      at = cell;
      *at = end;
      symbol = &symbols[(end >> 16) - 1];
      ++*words;
    }
    size_t arity = symbol->arity;
    word *cell = new_cell(w, arity);
    const word *ends = *words;
    *words += arity;
    *at = WIRE(cell) | TAG(*at);
    w->places = grown(w->places, &w->place_room, waiting + arity, sizeof *w->places);
    for (size_t k = arity; k-- > 0;) {
      cell[k] = ends[k];
      if (TAG(ends[k]) & SHARED) take_in(w, cell + k, wire_here(w, ends[k]), symbol->ports[k]);
      else if (AT(ends[k])) w->places[waiting++] = cell + k;
    }
    if (!waiting) return whole;
    at = w->places[--waiting];
  }
}

static void push(struct worker *w, word one, word other, bool is_constructor) {
  need_pairs(w, 1);
  w->sp[0] = is_constructor ? one : other;
  w->sp[1] = is_constructor ? other : one;
  w->sp += 2;
}

// ---- Letters.

// A letter about a wire begins: where its length is to be.
static size_t begin_letter(struct worker *w, word to, word kind) {
  size_t place = w->out.count;
  put_words(&w->out, (word[]){0, to, kind}, 3);
  return place;
}

static void end_letter(struct worker *w, size_t place, size_t agents) {
  word *letter = w->out.items + place;
  letter[0] = (word)(w->out.count - place - 1) << 16 | (word)HOME(letter[1]);
  w->cost += LETTER_COSTS + AGENT_COSTS * (int64_t)agents;
}

// To a wire's home: this wire goes on as another one.
static void send_wire(struct worker *w, word to, word next) {
  size_t place = begin_letter(w, to, 0);
  put_words(&w->out, &next, 1);
  end_letter(w, place, 0);
}

// To a wire's home: this agent has come to the other end.
static void send_agent(struct worker *w, word to, word agent, struct port port) {
  size_t place = begin_letter(w, to, kind_of(port));
  end_letter(w, place, put_agent(w, &w->out, agent, port, MOST_IN_LETTER));
}

// An agent comes to a wire.
static void come(struct worker *w, word wire, word agent, struct port port) {
  while (is_home(w, wire)) {
    struct stub *s = STUB(wire);
    word here = s->here;
    if (!here) {
      s->here = agent;
      s->port = port;
      return;
    }
    free_stub(w, s);
    if (!(TAG(here) & SHARED)) {
      if (TAG(here)) push(w, agent, here, port.constructor);
      else *AT(here) = agent;
      return;
    }
    wire = here;
  }
  new_end(w, wire, agent, port);
}

// A wire goes on as another one.
static void go_on(struct worker *w, word wire, word next) {
  while (is_home(w, wire)) {
    struct stub *s = STUB(wire);
    word here = s->here;
    if (!here) {
      s->here = next;
      return;
    }
    struct port port = s->port;
    free_stub(w, s);
    if (!TAG(here)) {
      take_in(w, AT(here), next, opposite(port));
      return;
    }
    if (!(TAG(here) & SHARED)) {
      come(w, next, here, port);
      return;
    }
    wire = here;
  }
  send_wire(w, wire, next);
}

static void read_words(struct worker *w, const word *at, size_t count) {
  for (const word *end = at + count; at < end;) {
    word to = *at++;
    struct port port = port_of(*at++);
    if (!to) {
      word c = take_agent(w, &at), d = take_agent(w, &at);
      push(w, c, d, true);
    } else if (TAG(*at) & SHARED) go_on(w, wire_here(w, to), wire_here(w, *at++));
    else {
      word agent = take_agent(w, &at);
      come(w, wire_here(w, to), agent, port);
    }
  }
}

// Whether a stub of another home leads to another such stub.
static bool leads_on(struct worker *w, const struct stub *s) { return is_stub(w, AT(s->here)) && !is_home(w, STUB(s->here)->wire); }

// What has come to stubs of other homes is sent there, and so are two such stubs that lead to each other: the next ones after those that were
// looked at before. Whether any was sent.
static bool look_at_ends(struct worker *w, size_t most) {
  bool has_sent = false;
  if (most > w->end_count) most = w->end_count;
  for (; most > 0 && w->end_count; most--) {
    if (w->next_end >= w->end_count) w->next_end = 0;
    struct stub *s = w->ends[w->next_end];
    word here = s->here, wire = s->wire;
    if (TAG(here)) {
      struct port port = s->port;
      free_end(w, s);
      send_agent(w, wire, here, port);
      has_sent = true;
    } else if (leads_on(w, s)) {
      struct stub *other = STUB(here);
      word next = other->wire;
      free_end(w, s);
      free_end(w, other);
      send_wire(w, wire, next);
      has_sent = true;
    } else w->next_end++;
  }
  return has_sent;
}

// Looks at all ends. Where one goes, the last one takes its place, perhaps one that was looked at, and another isn't reached: so all are looked at
// again until none goes.
static void look_at_all_ends(struct worker *w) {
  while (look_at_ends(w, w->end_count)) {}
#ifdef STRESS
  for (size_t k = 0; k < w->end_count; k++)
    if (TAG(w->ends[k]->here) || leads_on(w, w->ends[k])) abort();
#endif
}
