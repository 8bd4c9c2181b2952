// A net as a picture (SVG), from its layout. Not proved.
import { agentOf, isFreeEnd, isPrincipal } from "./nets.js";
import { halfWidth } from "./layout.js";

const HALF = 17;
export const escaped = text => text.replace(/[&<>"]/g, sign => `&#${sign.charCodeAt(0)};`);
export const wireOf = (one, other) => [one, other].sort().join(" ");
const at = ({ x, y }) => `${x.toFixed(1)} ${y.toFixed(1)}`;
const curve = (a, b, [above, below]) => `M${at(a)}C${at({ x: a.x, y: a.y + above })} ${at({ x: b.x, y: b.y + below })} ${at(b)}`;

// The picture. `titles` are the rules of the active pairs, by their numbers: without any, pairs are drawn as other agents. The first pair comes
// next. `classOf` says how an agent, by its number, or a wire, by `wireOf`, is marked.
export function draw(net, places, { titles, classOf = () => "" }) {
  const slot = point => places.slots.get(point);
  const port = point => {
    if (isFreeEnd(point)) return slot(point);
    const [agent, number] = point.split(".").map(Number), { x, y } = places.agents.get(agent), { name, arity } = net.symbol(agent);
    if (number === 0) return { x, y: y - HALF };
    const span = Math.min(2 * halfWidth(name) - 10, 16 * (arity - 1));
    return { x: x + (arity > 1 ? ((number - 1) / (arity - 1) - 0.5) * span : 0), y: y + HALF };
  };
  const wire = (one, other) => {
    const [top, low] = isPrincipal(one) ? [other, one] : [one, other], [a, b] = [top, low].map(port);
    if (isPrincipal(top)) {
      const lift = -14 - Math.min(30, Math.abs(a.x - b.x) / 8);
      return curve(a, b, [lift, lift]);
    }
    if (isPrincipal(low)) return curve(a, b, [14, -14]);
    // To a free end that is a leaf of this tree.
    if (isFreeEnd(top) !== isFreeEnd(low)) return a.y < b.y ? curve(a, b, [10, -10]) : curve(b, a, [10, -10]);
    // Across, by way of both slots.
    const [p, q] = [top, low].map(point => slot(point) ?? port(point)), sag = 16 + Math.min(60, Math.abs(p.x - q.x) / 5);
    const reach = (from, to, point) => (isFreeEnd(point) ? "" : curve(from, to, [8, -8]));
    return reach(a, p, top) + curve(p, q, [top, low].map(point => (isFreeEnd(point) ? 22 : sag))) + reach(b, q, low);
  };
  const isAcross = (one, other) => ![one, other].some(point => isPrincipal(point) || isFreeEnd(point));

  const pairOf = new Map((titles ? net.queue : []).flatMap((pair, number) => pair.map(agent => [agent, number])));
  const title = number => (titles?.[number] ? `<title>${escaped(titles[number])}</title>` : "");
  const active = number => (number === undefined ? "" : ` active${number === 0 ? " next" : ""}`);
  const wires = [], pairs = [];
  for (const [one, other] of net.partner) {
    if (one > other) continue;
    const own = classOf(wireOf(one, other)), d = wire(one, other);
    const number = isPrincipal(one) && isPrincipal(other) ? pairOf.get(agentOf(one)) : undefined;
    const drawn = `<path class="wire${isAcross(one, other) ? " across" : ""}${active(number)} ${own}" d="${d}"`;
    if (number === undefined) wires.push(`${drawn}/>`);
    else pairs.push(`${drawn} data-pair="${number}">${title(number)}</path>`);
  }
  const shapes = [...net.agents].map(([agent, { name, kind, arity }]) => {
    const { x, y } = places.agents.get(agent), half = halfWidth(name), number = pairOf.get(agent);
    const outline = kind === "class" ? `M${-half} -11H${half}V${HALF}H${-half}Z` : `M0 ${-HALF}L${half} ${-HALF + 13}V${HALF}H${-half}V${-HALF + 13}Z`;
    const dots = Array.from({ length: arity }, (_, place) => `<circle cx="${(port(`${agent}.${place + 1}`).x - x).toFixed(1)}" cy="${HALF}" r="1.8"/>`);
    const pair = number === undefined ? "" : ` data-pair="${number}"`;
    return `<g class="agent ${kind}${active(number)} ${classOf(agent)}" transform="translate(${at({ x, y })})"${pair}><path d="${outline}"/><text y="8">${escaped(name)}</text>${dots.join("")}${title(number)}</g>`;
  });
  const names = net.free.map((name, number) => {
    const { x, y } = slot(`=${number}`), partner = net.partner.get(`=${number}`), isLeaf = !isFreeEnd(partner) && !isPrincipal(partner);
    return `<text class="free" x="${x.toFixed(1)}" y="${(isLeaf ? y + 11 : y - 4).toFixed(1)}">${escaped(name)}</text>`;
  });
  const [width, height] = [places.width + 24, places.height + 12].map(Math.ceil);
  return `<svg xmlns="http://www.w3.org/2000/svg" aria-hidden="true" viewBox="-12 0 ${width} ${height}" style="width:${(width * 1.4).toFixed(0)}px">${wires.join("")}${pairs.join("")}${shapes.join("")}${names.join("")}</svg>`;
}
