// ---- A net that is read: the line of `inet_export`, byte by byte as docs/use/EXPORT.md says. Its types, symbols and rules have to be the own
// ones. Of the net all is checked on which the code relies: that each point is in one wire, that wires fit, and that the steps build it, which
// only a net without a vicious circle has.

// The text that is read, and how far.
struct reader { const char *path; char *text; size_t at, end; };

static _Noreturn void refuse(const struct reader *r, const char *what) {
  fprintf(stderr, "error: %s: byte %zu: %s\n", r->path, r->at + 1, what);
  quit(REFUSED);
}

static _Noreturn void refuse_stream(const char *path) {
  fprintf(stderr, "error: %s can't be read: %s\n", path, strerror(errno));
  quit(STREAM);
}

static struct reader read_text(const char *path) {
  const size_t most = (size_t)1 << 30;
  struct reader r = {path, 0, 0, 0};
  size_t room = 0;
  int file = strcmp(path, "-") ? open(path, O_RDONLY) : STDIN_FILENO;
  if (file < 0) refuse_stream(path);
  for (;;) {
    r.text = grown(r.text, &room, r.end + (1 << 15), 1);
    ssize_t more = read(file, r.text + r.end, room - r.end);
    if (more < 0 && errno == EINTR) continue;
    if (more < 0) refuse_stream(path);
    if (!more) break;
    r.end += (size_t)more;
    if (r.end > most) refuse(&r, "the text is longer than 1 GiB");
  }
  if (file != STDIN_FILENO) close(file);
  return r;
}

static bool takes(struct reader *r, const char *text) {
  size_t length = strlen(text);
  if (r->end - r->at < length || memcmp(r->text + r->at, text, length)) return false;
  r->at += length;
  return true;
}

static void need(struct reader *r, const char *text) {
  if (takes(r, text)) return;
  char what[80];
  snprintf(what, sizeof what, "here the line has to go on with %s", text);
  refuse(r, what);
}

// A number that is below this one.
static uint32_t need_number(struct reader *r, size_t below, const char *what) {
  uint64_t value = 0;
  size_t begin = r->at;
  while (r->at < r->end && r->text[r->at] >= '0' && r->text[r->at] <= '9' && value < UINT32_MAX) value = 10 * value + (uint64_t)(r->text[r->at++] - '0');
  bool is_written_so = r->at > begin && (r->text[begin] != '0' || r->at == begin + 1);
  if (!is_written_so || value >= below) {
    r->at = begin;
    refuse(r, what);
  }
  return (uint32_t)value;
}

// The name up to its end, at which a 0 is written.
static const char *need_name(struct reader *r) {
  need(r, "\"");
  const char *name = r->text + r->at;
  while (r->at < r->end && r->text[r->at] != '"' && r->text[r->at] != '\\' && (unsigned char)r->text[r->at] >= ' ') r->at++;
  if (r->at == r->end || r->text[r->at] != '"') refuse(r, "a name has to end here");
  r->text[r->at++] = 0;
  return name;
}

// Whether a list has another item; the first one has no comma before it.
static bool goes_on(struct reader *r, bool is_first) {
  if (takes(r, "]")) return false;
  if (!is_first) need(r, ",");
  return true;
}

// The sum of bytes that is written behind zlib's `crc32`.
static uint32_t sum_of(const char *text, size_t length) {
  uint32_t sum = UINT32_MAX;
  for (size_t k = 0; k < length; k++) {
    sum ^= (unsigned char)text[k];
    for (int bit = 0; bit < 8; bit++) sum = sum >> 1 ^ (sum & 1 ? 0xedb88320u : 0);
  }
  return ~sum;
}

// A net that is read and checked. Its points are numbered: the ports of the agents one after another, and then the free ends.
struct read {
  struct net net;
  struct free_end *free_ends;
  uint16_t *symbols;
  struct joint *joints;
  uint32_t *pairs;
  size_t free_room, agent_room, wire_room, pair_room;
  // Of each agent its first point, and of each point the one at the other end of its wire.
  size_t *first, *partner, points;
  // Of each step the later one that names it, or itself.
  uint32_t *later;
  size_t steps, step_room;
  // Of each agent and each wire the step that takes it, and of each point the steps with an open end that leads there: that of an agent's principal
  // port, and that of a wire by itself. All are counted from 1, and 0 is none.
  uint32_t *taken, *linked, *by_agent, *by_link;
};

static void *zeros(size_t count, size_t size) {
  void *list = calloc(count + 1, size);
  if (!list) out_of_memory();
  return list;
}

static size_t point_number(const struct read *n, struct point p) {
  return p.place < 0 ? n->first[n->net.agents] + (size_t)p.at : n->first[p.at] + (size_t)p.place;
}

// What is found at a point, seen from inside the net.
static struct port port_at(const struct read *n, struct point p) {
  if (p.place < 0) return n->free_ends[p.at].port;
  const struct symbol *symbol = &symbols[n->symbols[p.at]];
  return p.place ? symbol->ports[p.place - 1] : symbol->principal;
}

static void read_free_ends(struct reader *r, struct read *n) {
  need(r, "{\"free\":[");
  for (bool is_first = true; goes_on(r, is_first); is_first = false) {
    n->free_ends = grown(n->free_ends, &n->free_room, n->net.frees + 1, sizeof *n->free_ends);
    need(r, "{\"name\":");
    const char *name = need_name(r);
    need(r, ",\"type\":");
    uint16_t type = (uint16_t)need_number(r, TYPES, "no type has this number");
    need(r, ",\"output\":");
    bool is_output = takes(r, "true");
    if (!is_output) need(r, "false");
    need(r, "}");
    n->free_ends[n->net.frees++] = (struct free_end){name, {type, is_output, 0}};
  }
}

static void read_agents(struct reader *r, struct read *n) {
  need(r, ",\"agents\":[");
  for (bool is_first = true; goes_on(r, is_first); is_first = false) {
    if (n->net.agents == INT32_MAX) refuse(r, "these are too many agents");
    n->symbols = grown(n->symbols, &n->agent_room, n->net.agents + 1, sizeof *n->symbols);
    n->symbols[n->net.agents++] = (uint16_t)need_number(r, SYMBOLS, "no symbol has this number");
  }
  n->first = zeros(n->net.agents + 1, sizeof *n->first);
  for (size_t k = 0; k < n->net.agents; k++) n->first[k + 1] = n->first[k] + symbols[n->symbols[k]].arity + 1u;
  n->points = n->first[n->net.agents] + n->net.frees;
  n->partner = zeros(n->points, sizeof *n->partner);
}

static struct point need_point(struct reader *r, const struct read *n) {
  const char *what = "no agent, port or free end has this number";
  need(r, "[");
  size_t begin = r->at;
  uint32_t at = need_number(r, INT32_MAX, what);
  if (takes(r, ",")) {
    if (at >= n->net.agents) {
      r->at = begin;
      refuse(r, what);
    }
    struct point p = {(int32_t)at, (int32_t)need_number(r, symbols[n->symbols[at]].arity + 1u, what)};
    need(r, "]");
    return p;
  }
  if (at >= n->net.frees) {
    r->at = begin;
    refuse(r, what);
  }
  need(r, "]");
  return (struct point){(int32_t)at, -1};
}

static void read_wires(struct reader *r, struct read *n) {
  bool *is_met = zeros(n->points, sizeof *is_met);
  need(r, ",\"wires\":[");
  for (bool is_first = true; goes_on(r, is_first); is_first = false) {
    size_t begin = r->at;
    need(r, "[");
    struct point one = need_point(r, n);
    need(r, ",");
    struct point other = need_point(r, n);
    need(r, "]");
    struct port here = port_at(n, one), there = port_at(n, other);
    size_t p = point_number(n, one), q = point_number(n, other);
    bool is_free = p != q && !is_met[p] && !is_met[q], fits = here.type == there.type && here.constructor != there.constructor;
    if (!is_free || !fits) {
      r->at = begin;
      refuse(r, is_free ? "this wire joins what doesn't fit" : "a point of this wire is in two");
    }
    is_met[p] = is_met[q] = true;
    n->partner[p] = q;
    n->partner[q] = p;
    n->joints = grown(n->joints, &n->wire_room, n->net.wires + 1, sizeof *n->joints);
    n->joints[n->net.wires++] = here.constructor ? (struct joint){other, one} : (struct joint){one, other};
  }
  if (2 * n->net.wires != n->points) refuse(r, "a point of the net is in no wire");
  free(is_met);
}

static bool is_active(const struct read *n, size_t wire) { return !n->joints[wire].plus.place && !n->joints[wire].minus.place; }

static void read_pairs(struct reader *r, struct read *n) {
  bool *is_met = zeros(n->net.wires, sizeof *is_met);
  size_t active = 0;
  need(r, ",\"active\":[");
  for (bool is_first = true; goes_on(r, is_first); is_first = false) {
    size_t begin = r->at;
    uint32_t wire = need_number(r, n->net.wires, "no wire has this number");
    if (is_met[wire] || !is_active(n, wire)) {
      r->at = begin;
      refuse(r, "this wire joins no active pair, or is named twice");
    }
    is_met[wire] = true;
    n->pairs = grown(n->pairs, &n->pair_room, n->net.active + 1, sizeof *n->pairs);
    n->pairs[n->net.active++] = wire;
  }
  for (size_t k = 0; k < n->net.wires; k++) active += is_active(n, k);
  if (active != n->net.active) refuse(r, "an active pair is missing");
  free(is_met);
}

static void read_nodes(struct reader *r, struct read *n) {
  need(r, ",\"nodes\":[");
  size_t count = 0;
  for (bool is_first = true; goes_on(r, is_first); is_first = false) {
    need(r, "[");
    size_t begin = r->at;
    uint32_t symbol = need_number(r, SYMBOLS, "no symbol has this number");
    if (count == n->net.agents || n->symbols[count++] != symbol) {
      r->at = begin;
      refuse(r, "the nodes aren't the agents");
    }
    need(r, "]");
  }
  if (count != n->net.agents) refuse(r, "the nodes aren't the agents");
}

// The step that has to do with this one at last: the latest that is made of it.
static uint32_t whole_of(const struct read *n, uint32_t step) {
  while (n->later[step] != step) step = n->later[step] = n->later[n->later[step]];
  return step;
}

static bool has_end(const struct read *n, uint32_t whole, uint32_t step) { return step && whole_of(n, step - 1) == whole; }

// Closes an open end of this step that leads to a point, if there is one.
static bool closes(struct read *n, uint32_t whole, size_t point) {
  uint32_t *of = has_end(n, whole, n->by_agent[point]) ? &n->by_agent[point] : &n->by_link[point];
  if (!has_end(n, whole, *of)) return false;
  *of = 0;
  return true;
}

static bool leads_to(const struct read *n, uint32_t whole, size_t point) {
  return has_end(n, whole, n->by_agent[point]) || has_end(n, whole, n->by_link[point]);
}

// An earlier step, which none named before.
static uint32_t need_step(struct reader *r, const struct read *n) {
  size_t begin = r->at;
  uint32_t step = need_number(r, n->steps, "no earlier step has this number");
  if (n->later[step] != step) {
    r->at = begin;
    refuse(r, "this step is named twice");
  }
  return step;
}

static void read_link(struct reader *r, struct read *n, uint32_t step) {
  uint32_t wire = need_number(r, n->net.wires, "no wire has this number");
  if (n->linked[wire]) refuse(r, "this wire is taken twice");
  n->linked[wire] = step + 1;
  n->by_link[point_number(n, n->joints[wire].plus)] = n->by_link[point_number(n, n->joints[wire].minus)] = step + 1;
}

static void read_graft(struct reader *r, struct read *n, uint32_t step) {
  uint32_t agent = need_number(r, n->net.agents, "no agent has this number"), named[MOST_ARITY];
  const struct symbol *symbol = &symbols[n->symbols[agent]];
  if (n->taken[agent]) refuse(r, "this agent is taken twice");
  need(r, ",[");
  for (int k = 0; k < symbol->classes; k++) {
    if (k) need(r, ",");
    named[k] = need_step(r, n);
    for (int j = 0; j < k; j++)
      if (named[j] == named[k]) refuse(r, "this step is named twice");
  }
  need(r, "]");
  for (int place = 1; place <= symbol->arity; place++) {
    uint32_t part = named[symbol->ports[place - 1].class - 1];
    if (!closes(n, part, n->first[agent] + (size_t)place)) refuse(r, "the step of a class has no end that leads to this agent's port");
  }
  for (int k = 0; k < symbol->classes; k++) n->later[named[k]] = step;
  n->taken[agent] = step + 1;
  n->by_agent[n->partner[n->first[agent]]] = step + 1;
}

static void read_cut(struct reader *r, struct read *n, uint32_t step) {
  uint32_t wire = need_number(r, n->net.wires, "no wire has this number"), parts[2];
  need(r, ",");
  parts[0] = need_step(r, n);
  need(r, ",");
  parts[1] = need_step(r, n);
  if (parts[0] == parts[1]) refuse(r, "this step is named twice");
  for (int way = 0; way < 2; way++) {
    struct point one = way ? n->joints[wire].minus : n->joints[wire].plus, other = way ? n->joints[wire].plus : n->joints[wire].minus;
    size_t p = point_number(n, one), q = point_number(n, other);
    if (one.place < 0 || !has_end(n, parts[0], n->taken[one.at]) || !leads_to(n, parts[0], q) || !leads_to(n, parts[1], p)) continue;
    closes(n, parts[0], q);
    closes(n, parts[1], p);
    n->later[parts[0]] = n->later[parts[1]] = step;
    return;
  }
  refuse(r, "this wire doesn't join the two steps");
}

// Steps, each of which builds what docs/use/EXPORT.md says, and the last one the net.
static void read_steps(struct reader *r, struct read *n) {
  n->taken = zeros(n->net.agents, sizeof *n->taken);
  n->linked = zeros(n->net.wires, sizeof *n->linked);
  n->by_agent = zeros(n->points, sizeof *n->by_agent);
  n->by_link = zeros(n->points, sizeof *n->by_link);
  need(r, ",\"steps\":[");
  size_t named = 0;
  for (bool is_first = true; goes_on(r, is_first); is_first = false) {
    if (n->steps == INT32_MAX) refuse(r, "these are too many steps");
    uint32_t step = (uint32_t)n->steps;
    n->later = grown(n->later, &n->step_room, n->steps + 1, sizeof *n->later);
    n->later[step] = step;
    if (takes(r, "[\"link\",")) read_link(r, n, step);
    else if (takes(r, "[\"graft\",")) read_graft(r, n, step);
    else if (takes(r, "[\"cut\",")) read_cut(r, n, step);
    else if (takes(r, "[\"mix\",")) {
      uint32_t one = need_step(r, n);
      need(r, ",");
      uint32_t other = need_step(r, n);
      if (one == other) refuse(r, "this step is named twice");
      n->later[one] = n->later[other] = step;
    } else need(r, "[\"empty\"");
    need(r, "]");
    n->steps++;
  }
  for (size_t k = 0; k < n->steps; k++) named += n->later[k] != k;
  bool is_built = n->steps && named == n->steps - 1;
  for (size_t k = 0; k < n->net.agents; k++) is_built &= n->taken[k] != 0;
  for (size_t k = 0; k < n->points; k++) is_built &= !!n->by_agent[k] + !!n->by_link[k] == (k >= n->first[n->net.agents]);
  if (!is_built) refuse(r, "the steps don't build the net");
  free(n->taken);
  free(n->linked);
  free(n->by_agent);
  free(n->by_link);
  free(n->later);
}

// The net of the line in a file. It lasts as long as the program.
static struct net read_net(const char *path) {
  static struct reader reader;
  static struct read n;
  struct reader *r = &reader;
  reader = read_text(path);
  if (r->end >= 7 && !memcmp(r->text, "refused", 7)) refuse(r, "this is the line of a program that was refused");
  if (!takes(r, "{\"format\":")) refuse(r, "this is no line of inet_export");
  if (!takes(r, "1,")) refuse(r, "the line has another format than 1");
  r->at = 0;
  if (r->end < RULES_LENGTH || sum_of(r->text, RULES_LENGTH) != RULES_SUM) refuse(r, "the types, symbols and rules aren't those that were compiled");
  r->at = RULES_LENGTH;
  read_free_ends(r, &n);
  read_agents(r, &n);
  read_wires(r, &n);
  read_pairs(r, &n);
  read_nodes(r, &n);
  read_steps(r, &n);
  need(r, "}}");
  if (takes(r, "\n"), r->at != r->end) refuse(r, "nothing may come behind the line");
  n.net.free_ends = n.free_ends;
  n.net.symbols = n.symbols;
  n.net.joints = n.joints;
  n.net.pairs = n.pairs;
  free(n.first);
  free(n.partner);
  return n.net;
}
