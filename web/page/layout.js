// Where the agents of a net are drawn. Not proved.
//
// A net without a vicious circle is a forest: each principal port leads to a free end, to another principal port, or to an auxiliary port of the
// agent above. So trees are laid out from their leaves, in the order of ports, and only wires without a principal port run across.
import { agentOf, isFreeEnd, isPrincipal } from "./nets.js";

const SLOT = 34, ROW = 62;
// Trees side by side take at most this many slots; others are drawn below.
const SHELF = 30;

export const halfWidth = name => Math.max(15, 5 + 4.2 * [...name].length);
const nameWidth = name => Math.max(1, ([...name].length * 8) / SLOT);

// The places of agents and of what is no port of an agent: of free ends, and of the leaves where wires run across.
export function layOut(net) {
  const agents = new Map(), slots = new Map(), takes = new Map();
  let top = 0, left = 0, deepest = 0, width = 0;

  const below = agent => Array.from({ length: net.symbol(agent).arity }, (_, place) => net.partner.get(`${agent}.${place + 1}`));
  const needed = point => (isPrincipal(point) ? takes.get(agentOf(point)) : isFreeEnd(point) ? nameWidth(net.free[Number(point.slice(1))]) : 1);
  // The slots that a tree takes: each agent after those below it, without recursion, since trees may be deep.
  const measure = root => {
    const order = [root];
    for (let at = 0; at < order.length; at++) for (const point of below(order[at])) if (isPrincipal(point)) order.push(agentOf(point));
    for (const agent of order.reverse()) {
      const inner = below(agent).reduce((sum, point) => sum + needed(point), 0);
      takes.set(agent, Math.max(inner, (2 * halfWidth(net.symbol(agent).name)) / SLOT + 0.3, 1));
    }
    return takes.get(root);
  };
  const place = (root, from, row) => {
    const waiting = [[root, from, row]];
    while (waiting.length) {
      const [agent, from, row] = waiting.pop(), points = below(agent), parts = points.map(needed);
      agents.set(agent, { x: (from + takes.get(agent) / 2) * SLOT, y: row * ROW });
      deepest = Math.max(deepest, row + (points.some(isFreeEnd) ? 1.3 : points.length ? 0.9 : 0.5));
      let at = from + (takes.get(agent) - parts.reduce((sum, it) => sum + it, 0)) / 2;
      points.forEach((point, number) => {
        const slot = { x: (at + parts[number] / 2) * SLOT, y: (row + 0.62) * ROW };
        if (isPrincipal(point)) waiting.push([agentOf(point), at, row + 1]);
        else slots.set(`${agent}.${number + 1}`, slot);
        if (isFreeEnd(point)) slots.set(point, { x: slot.x, y: slot.y + 18 });
        at += parts[number];
      });
    }
  };
  const shelve = need => {
    if (left > 0 && left + need > SHELF) {
      top = deepest + 0.6;
      left = 0;
    }
    const at = left;
    left += need + 0.6;
    width = Math.max(width, left - 0.6);
    return at;
  };

  net.free.forEach((name, number) => {
    const partner = net.partner.get(`=${number}`);
    // A free end at an auxiliary port is a leaf of that agent's tree.
    if (!isFreeEnd(partner) && !isPrincipal(partner)) return;
    const isTree = isPrincipal(partner), need = Math.max(isTree ? measure(agentOf(partner)) : 1, nameWidth(name)), at = shelve(need);
    slots.set(`=${number}`, { x: (at + need / 2) * SLOT, y: (top + 0.25) * ROW });
    deepest = Math.max(deepest, top + 0.6);
    if (isTree) place(agentOf(partner), at + (need - takes.get(agentOf(partner))) / 2, top + 1);
  });
  for (const root of net.roots) place(root, shelve(measure(root)), top + 1);
  for (const [one, other] of net.drawn ?? net.queue) {
    const needs = [one, other].map(measure), at = shelve(needs[0] + needs[1] + 0.2);
    place(one, at, top + 1);
    place(other, at + needs[0] + 0.2, top + 1);
  }
  return { agents, slots, width: Math.max(width, 2) * SLOT, height: (deepest + 0.2) * ROW };
}

// Between two layouts: what is in both moves; what is new comes from `origin`.
export function between(from, to, share, origin) {
  const mix = (a, b) => ({ x: a.x + (b.x - a.x) * share, y: a.y + (b.y - a.y) * share });
  const all = (old, now, start) => new Map([...now].map(([key, place]) => [key, mix(old.get(key) ?? start ?? place, place)]));
  return { agents: all(from.agents, to.agents, origin), slots: all(from.slots, to.slots, null), width: from.width + (to.width - from.width) * share, height: from.height + (to.height - from.height) * share };
}
