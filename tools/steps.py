#!/usr/bin/env python3
"""Checks the steps of an exported program: that they build each rule's right member, with a node for each class of its heads, and the net.

Usage: inet_export < PROGRAM.inet | tools/steps.py

Prints `yes` and how many steps there are, or for each rule or net that isn't built by its steps a line that says why, and ends with
status 1. The steps are Lafont 1990's constructions; docs/use/EXPORT.md says what each one builds.
"""
import argparse
from collections import Counter

import streams
from nets import Program


class Wrong(Exception):
    """Why the steps build nothing."""


def need(holds, why):
    if not holds:
        raise Wrong(why)


class OpenNet:
    """A net with a node for each agent, and for each class of a rule's heads. A wire's points are a node with its port, or a free end;
    the ports of a class node are named after the boundary ends."""

    def __init__(self, program, item):
        self.symbols = program.symbols
        self.nodes = [tuple(node) for node in item["nodes"]]
        # The agents are the nodes without a class, in order.
        agents = [number for number, node in enumerate(self.nodes) if len(node) == 1]
        need([self.nodes[number][0] for number in agents] == item["agents"], "the nodes without a class aren't the agents")
        # Of each class node its points.
        self.given = {}
        boundary = self.boundary_of(item) if "constructor" in item else None
        point = lambda p: (agents[p[0]], p[1]) if len(p) == 2 else ("free", p[0]) if boundary is None else boundary[p[0]]
        self.wires = [(point(one), point(other)) for one, other in item["wires"]]
        points = Counter(p for wire in self.wires for p in wire)
        need(points == Counter(self.points(agents, item, boundary)), "some point isn't in exactly one wire")
        self.partner = {}
        for one, other in self.wires:
            self.partner[one], self.partner[other] = other, one

    def boundary_of(self, item):
        """The class node and port of each boundary end: the places of the constructor first, and then those of the destructor."""
        heads = [(symbol, port["class"]) for symbol in (item["constructor"], item["destructor"]) for port in self.symbols[symbol].ports[1:]]
        need(sorted(set(heads)) == sorted(node for node in self.nodes if len(node) == 2), "the nodes with a class aren't those of the heads")
        boundary = [(self.nodes.index(node), ("end", number)) for number, node in enumerate(heads)]
        for point in boundary:
            self.given.setdefault(point[0], []).append(point)
        return boundary

    def points(self, agents, item, boundary):
        for agent in agents:
            yield from ((agent, place) for place in range(self.symbols[self.nodes[agent][0]].arity + 1))
        yield from (("free", number) for number in range(len(item["free"]))) if boundary is None else boundary

    def is_agent(self, node):
        return len(self.nodes[node]) == 1


class Parts:
    """What the steps build: of each the later one that names it, and at last the one that is made of it; the step of each node and of each wire by
    itself; and of each open end the step, by the point to which it leads. Two may lead to one point: that of a node and that of a wire by itself."""

    def __init__(self):
        self.later, self.nodes, self.links, self.ends = [], {}, {}, ({}, {})

    def whole_of(self, step):
        while (next_one := self.later[step]) != step:
            self.later[step] = self.later[next_one]
            step = next_one
        return step

    def leads_to(self, step, point):
        """Those of the open ends that lead from this step to the point."""
        return [ends for ends in self.ends if point in ends and self.whole_of(ends[point]) == step]

    def close(self, step, point):
        """Takes away an open end of the step that leads to this point."""
        ends = self.leads_to(step, point)
        need(ends, f"no open end leads to {point}")
        del ends[0][point]

    def take(self, node, step):
        need(node not in self.nodes, "a node is taken twice")
        self.nodes[node] = step


def build(net, parts, step, number, named):
    """Builds a step out of the earlier ones that it names."""
    kind, operands = step[0], step[1:]
    by_node, by_link = parts.ends
    if kind == "link":
        (wire,) = operands
        need(wire not in parts.links, "a wire is taken twice")
        parts.links[wire] = number
        by_link.update(dict.fromkeys(net.wires[wire], number))
    elif kind == "given":
        (node,) = operands
        need(not net.is_agent(node), "the node is an agent")
        parts.take(node, number)
        by_node.update((net.partner[point], number) for point in net.given[node])
    elif kind == "graft":
        node, _ = operands
        need(net.is_agent(node), "the node is no agent")
        symbol = net.symbols[net.nodes[node][0]]
        need(len(named) == symbol.classes, "not one net for each class")
        for place, port in enumerate(symbol.ports[1:], 1):
            # The net of the port's class has an end that leads to this port.
            parts.close(named[port["class"] - 1], (node, place))
        parts.take(node, number)
        by_node[net.partner[node, 0]] = number
    elif kind == "cut":
        # One part has a point of the wire and an end to the other one; the other part has an end to this point.
        one, other = named
        for p, q in (net.wires[operands[0]], net.wires[operands[0]][::-1]):
            if p[0] in parts.nodes and parts.whole_of(parts.nodes[p[0]]) == one and parts.leads_to(one, q) and parts.leads_to(other, p):
                parts.close(one, q)
                parts.close(other, p)
                break
        else:
            raise Wrong("the wire doesn't join the two parts")


def named_by(step):
    """The steps that a step names."""
    return step[2] if step[0] == "graft" else {"cut": step[2:], "mix": step[1:]}.get(step[0], [])


SIZES = {"empty": 1, "link": 2, "given": 2, "graft": 3, "cut": 4, "mix": 3}


def check_steps(program, item):
    """Whether the steps of a rule or a net build it, in a time nearly in proportion to them; else says why."""
    net = OpenNet(program, item)
    parts = Parts()
    for number, step in enumerate(item["steps"]):
        need(SIZES.get(step[0]) == len(step), f"no step: {step}")
        named = named_by(step)
        need(all(0 <= earlier < number for earlier in named), "a step names one that isn't earlier")
        need(len(set(named)) == len(named) and all(parts.later[earlier] == earlier for earlier in named), "a step is named twice")
        need(step[0] not in ("given", "graft") or 0 <= step[1] < len(net.nodes), "no such node")
        need(step[0] not in ("link", "cut") or 0 <= step[1] < len(net.wires), "no such wire")
        parts.later.append(number)
        build(net, parts, step, number, named)
        for earlier in named:
            parts.later[earlier] = number
    need(parts.later, "there are no steps")
    need(all(later != number for number, later in enumerate(parts.later[:-1])), "not each step but the last is named once")
    need(len(parts.nodes) == len(net.nodes), "not each node is built")
    is_open = Counter(point for ends in parts.ends for point in ends)
    need(is_open == Counter(point for point in net.partner if point[0] == "free"), "what is open at the end isn't the free ends")


def main():
    argparse.ArgumentParser(description=__doc__, formatter_class=argparse.RawDescriptionHelpFormatter).parse_args()
    program = Program.read()
    items = [(f"rule {number}", item) for number, item in enumerate(program.data["rules"])] + [("net", program.data["net"])]
    wrong = []
    for name, item in items:
        try:
            check_steps(program, item)
        except (Wrong, LookupError, TypeError, ValueError, AttributeError) as why:
            wrong.append(f"{name}: {why}\n")
    streams.write("".join(wrong) or f"yes: {sum(len(item['steps']) for _, item in items)} steps\n")
    return streams.REFUSED if wrong else 0


if __name__ == "__main__":
    streams.run(main)
