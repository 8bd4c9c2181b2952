// Nets, as the page draws them: read from what the runner prints (docs/use/OUTPUT.md), or from the export (docs/use/EXPORT.md). Not proved. No
// interaction is done here: each net of a run is the runner's.
//
// A point is "agent.place" for a port, place 0 being the principal one, and "=number" for a free end.

export const isPrincipal = point => point.endsWith(".0");
export const isFreeEnd = point => point.startsWith("=");
export const agentOf = point => Number(point.split(".")[0]);

export class Program {
  constructor(data) {
    this.symbols = data.symbols.map(({ name, ports }) => ({ name, ports, arity: ports.length - 1, kind: ports[0].output ? "constructor" : "destructor" }));
    this.rules = data.rules;
    this.net = data.net;
    this.types = data.types;
    this.byName = new Map(this.symbols.map(symbol => [symbol.name, symbol]));
    this.byHeads = new Map(data.rules.map((rule, number) => [`${this.symbols[rule.constructor].name} ${this.symbols[rule.destructor].name}`, number]));
    // Where a symbol has the name of a variable, a printed net can't be read.
    this.isReadable = !this.symbols.some(({ name, arity }) => !arity && /^v[0-9]+$/.test(name));
  }

  // The ports that a rule's boundary ends have the numbers of: which head (0: the constructor), and the place.
  boundary(rule) {
    return [rule.constructor, rule.destructor].flatMap((symbol, head) => Array.from({ length: this.symbols[symbol].arity }, (_, place) => [head, place + 1]));
  }

  ruleOf(net, [one, other]) {
    return this.rules[this.byHeads.get(`${net.symbol(one).name} ${net.symbol(other).name}`)];
  }
}

export class Net {
  constructor(free = []) {
    this.free = free;
    this.agents = new Map();
    this.partner = new Map();
    // Active pairs in the order of the queue, each the constructor first; and in the order in which they are drawn.
    this.queue = [];
    this.drawn = null;
    // Class nodes of a rule, which have no principal port.
    this.roots = [];
    this.unused = 0;
  }

  add(symbol) {
    this.agents.set(this.unused, symbol);
    return this.unused++;
  }

  symbol(agent) {
    return this.agents.get(agent);
  }

  join(one, other) {
    this.partner.set(one, other);
    this.partner.set(other, one);
  }
}

// The net that these lines of the runner print.
export function readNet(program, text) {
  const lines = text.split("\n").filter(line => / [=~] /.test(line));
  const net = new Net(lines.filter(line => line.includes(" = ")).map(line => line.slice(0, line.indexOf(" = "))));
  const variables = new Map();
  // Joins the term to a point; where there is none, answers the agent whose principal port it is.
  const read = (term, point) => {
    const open = [];
    let first = null, at = point;
    for (const [sign] of term.matchAll(/[(),]|[^(), ]+/g)) {
      if (sign === "(") open.push({ agent: first, place: 1 });
      else if (sign === ",") open.at(-1).place += 1;
      else if (sign === ")") open.pop();
      else {
        const inner = open.at(-1);
        if (inner) at = `${inner.agent}.${inner.place}`;
        const symbol = program.byName.get(sign);
        if (symbol) {
          const agent = net.add(symbol);
          if (at !== null) net.join(at, `${agent}.0`);
          // The bracket that may follow is this agent's.
          first = agent;
          if (point === null) point = agent;
        } else if (variables.has(sign)) net.join(variables.get(sign), at);
        else variables.set(sign, at);
      }
    }
    return point;
  };
  let ends = 0;
  for (const line of lines) {
    const [, left, sign, right] = /^(.*) ([=~]) (.*)$/.exec(line);
    if (sign === "=") read(right, `=${ends++}`);
    else {
      const pair = [read(left, null), read(right, null)];
      net.join(`${pair[0]}.0`, `${pair[1]}.0`);
      net.queue.push(pair);
    }
  }
  return net;
}

const pointOf = ([one, place]) => (place === undefined ? `=${one}` : `${one}.${place}`);

// The right member of a rule or the program's net, from the export, with a node for each class of the rule's heads: the agent numbers are those
// of its nodes. `ends` has the wire's two points by its number.
export function itemNet(program, item) {
  const isRule = item.constructor !== undefined && item.free === undefined;
  const net = new Net(isRule ? [] : item.free.map(end => end.name));
  const boundary = isRule ? program.boundary(item) : [];
  const places = new Map(), numbers = [];
  item.nodes.forEach(([symbol, group], number) => {
    const own = program.symbols[symbol];
    if (group === undefined) {
      numbers.push(net.add(own));
      return;
    }
    const head = symbol === item.constructor ? 0 : 1;
    const ends = boundary.map(([of, place], end) => ({ of, place, end })).filter(({ of, place }) => of === head && own.ports[place].class === group);
    const grouped = ends.map(it => it.place);
    const node = net.add({ name: `${own.name} ${grouped.join(" ")}`, arity: ends.length, kind: "class", head: own.name, places: grouped });
    ends.forEach(({ end }, place) => places.set(end, `${node}.${place + 1}`));
    net.roots.push(node);
  });
  const point = ([one, place]) => (place !== undefined ? `${numbers[one]}.${place}` : places.get(one) ?? `=${one}`);
  net.wires = item.wires.map(wire => wire.map(point));
  for (const [one, other] of net.wires) net.join(one, other);
  net.queue = item.active.map(number => net.wires[number].map(agentOf)).map(pair => (net.symbol(pair[0]).kind === "constructor" ? pair : [pair[1], pair[0]]));
  return net;
}

// The term at a point, with these numbers of variables.
function termAt(net, point, numbers) {
  const written = [], waiting = [{ point }];
  while (waiting.length) {
    const { point, text } = waiting.pop();
    if (text !== undefined) {
      written.push(text);
      continue;
    }
    const partner = net.partner.get(point);
    if (!isPrincipal(partner)) {
      const wire = [point, partner].sort().join(" ");
      if (!numbers.has(wire)) numbers.set(wire, numbers.size + 1);
      written.push(`v${numbers.get(wire)}`);
      continue;
    }
    const agent = agentOf(partner), { name, arity } = net.symbol(agent);
    written.push(name);
    if (!arity) continue;
    waiting.push({ text: ")" });
    for (let place = arity; place >= 1; place--) waiting.push({ point: `${agent}.${place}` }, { text: place > 1 ? ", " : "(" });
  }
  return written.join("");
}

// The net as `inet run` prints it.
export function printed(net) {
  const numbers = new Map();
  const ends = net.free.map((name, number) => `${name} = ${termAt(net, `=${number}`, numbers)}\n`);
  return [...ends, ...net.queue.map(([one, other]) => `${termAt(net, `${other}.0`, numbers)} ~ ${termAt(net, `${one}.0`, numbers)}\n`)].join("");
}

// A rule in the language, with variables of its own.
export function ruleText(program, rule) {
  const net = new Net(program.boundary(rule).map(() => ""));
  for (const symbol of rule.agents) net.add(program.symbols[symbol]);
  for (const [one, other] of rule.wires) net.join(pointOf(one), pointOf(other));
  const numbers = new Map();
  const terms = program.boundary(rule).map(([head], number) => [head, termAt(net, `=${number}`, numbers)]);
  const heads = [rule.constructor, rule.destructor].map((symbol, head) => `${program.symbols[symbol].name}[${terms.filter(it => it[0] === head).map(it => it[1]).join(", ")}]`);
  const own = rule.active.map(wire => rule.wires[wire].map(pointOf)).map(([one, other]) => `${termAt(net, other, numbers)} ~ ${termAt(net, one, numbers)};`);
  return `rule ${heads[0]} >< ${heads[1]}${own.length ? ` with { ${own.join(" ")} }` : ""};`;
}

// Gives the agents of the net after an interaction of this pair the numbers that they have before it, as far as they can be followed from the
// free ends and the other pairs: so that the picture shows each agent move. What can't be followed has a new number.
export function follow(program, before, chosen, after) {
  const pair = before.queue[chosen], rule = program.ruleOf(before, pair);
  const boundary = program.boundary(rule).map(([head, place]) => `${pair[head]}.${place}`);
  const inner = new Map(rule.wires.flatMap(([one, other]) => [[pointOf(one), pointOf(other)], [pointOf(other), pointOf(one)]]));
  // Points of the net that is expected: those before, and "+agent.place" for the agents of the rule.
  const outside = point => {
    const end = boundary.indexOf(point);
    return end < 0 ? point : inside(inner.get(`=${end}`));
  };
  const inside = point => (isFreeEnd(point) ? outside(before.partner.get(boundary[Number(point.slice(1))])) : `+${point}`);
  const beyond = point => (point.startsWith("+") ? inside(inner.get(point.slice(1))) : outside(before.partner.get(point)));
  const names = new Map(), waiting = [];
  const match = (expected, found) => {
    if (isFreeEnd(found) || !expected || isFreeEnd(expected)) return;
    const [old, place] = expected.split("."), [now, port] = found.split(".");
    if (place !== port || names.has(Number(now))) return;
    names.set(Number(now), old);
    waiting.push([old, Number(now)]);
  };
  after.free.forEach((_, end) => match(beyond(`=${end}`), after.partner.get(`=${end}`)));
  before.queue.filter((_, number) => number !== chosen).forEach((old, number) => old.forEach((agent, head) => after.queue[number] && match(`${agent}.0`, `${after.queue[number][head]}.0`)));
  while (waiting.length) {
    const [old, now] = waiting.pop();
    for (let place = 0; place <= after.symbol(now).arity; place++) match(beyond(`${old}.${place}`), after.partner.get(`${now}.${place}`));
  }
  // Numbers for the new ones.
  const numbers = new Map();
  let unused = before.unused;
  for (const agent of after.agents.keys()) {
    const old = names.get(agent);
    numbers.set(agent, old === undefined || old.startsWith("+") ? unused++ : Number(old));
  }
  const renamed = new Net(after.free);
  const rename = point => (isFreeEnd(point) ? point : `${numbers.get(agentOf(point))}.${point.split(".")[1]}`);
  for (const [agent, symbol] of after.agents) renamed.agents.set(numbers.get(agent), symbol);
  for (const [one, other] of after.partner) renamed.partner.set(rename(one), rename(other));
  renamed.queue = after.queue.map(both => both.map(agent => numbers.get(agent)));
  renamed.unused = unused;
  // The pairs that come of this one are drawn where it was.
  const isNew = ([one, other]) => !before.queue.some(([a, b], number) => number !== chosen && a === one && b === other);
  const fresh = renamed.queue.filter(isNew), kept = new Map(renamed.queue.filter(it => !isNew(it)).map(it => [it.join(" "), it]));
  renamed.drawn = (before.drawn ?? before.queue).flatMap(old => (old.join(" ") === pair.join(" ") ? fresh : kept.has(old.join(" ")) ? [kept.get(old.join(" "))] : []));
  if (renamed.drawn.length !== renamed.queue.length) renamed.drawn = null;
  return renamed;
}
