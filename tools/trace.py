#!/usr/bin/env python3
"""Writes one page of HTML, without any outside part, that shows the run of an exported program step by step: the net as a picture (where
Graphviz is there) and as `inet run` prints it, the active pair that comes next, and its rule.

Usage: inet_export < PROGRAM.inet | tools/trace.py [--program PROGRAM.inet] [--order queue|stack|random] [--seed N] [--limit N] > PAGE.html

With the program itself (`--program`) each rule is shown as it is written there, with its line, and the page has the file's name as its title. The
page ends after 60 interactions, or as many as `--limit` says, and says so where the run goes on.
"""
import argparse
import html
import os
import re

import streams
from declarations import without_comments
from nets import Net, Program, chooser, dot, rule_text, svg

USUAL_STEPS = 60
# A rule as it is written, with the names of its heads. No right member within the usual limits is longer.
RULE = re.compile(r"\brule\s+(\w+)\s*\[[^\]]{0,9999}\]\s*><\s*(\w+)\s*\[[^\]]{0,9999}\]\s*(?:\bwith\s*\{[^}]{0,19999}\}\s*)?;")

PAGE = """<!DOCTYPE html>
<html lang="en">
<head>
<meta charset="utf-8">
<meta name="viewport" content="width=device-width, initial-scale=1">
<title>{title}</title>
<style>
body {{ font-family: sans-serif; margin: 1.5em auto; max-width: 62em; padding: 0 1em; color: #222; }}
nav {{ display: flex; gap: 0.6em; align-items: center; position: sticky; top: 0; background: #fff; padding: 0.5em 0; }}
nav input {{ flex: 1; }}
button {{ font-size: 1em; padding: 0.2em 0.8em; }}
section {{ display: none; }}
section.shown {{ display: block; }}
figure {{ margin: 1em 0; overflow-x: auto; text-align: center; }}
figure svg {{ max-width: 100%; height: auto; }}
pre {{ background: #f4f4f4; padding: 0.7em; overflow-x: auto; }}
.pair {{ color: #c0392b; font-weight: bold; }}
</style>
</head>
<body>
<h1>{title}</h1>
<nav>
<button id="back">back</button>
<input id="step" type="range" min="0" max="{last}" value="0" aria-label="how many interactions">
<button id="next">next</button>
</nav>
{sections}
<p>An arrow is the principal port of its agent, a number the place of an auxiliary port. Two arrows that meet are an active pair.</p>
<script>
const steps = document.querySelectorAll("section"), range = document.getElementById("step");
const show = number => {{
  range.value = Math.max(0, Math.min(steps.length - 1, number));
  steps.forEach((step, other) => step.classList.toggle("shown", other === Number(range.value)));
}};
range.oninput = () => show(Number(range.value));
document.getElementById("back").onclick = () => show(Number(range.value) - 1);
document.getElementById("next").onclick = () => show(Number(range.value) + 1);
document.onkeydown = event => {{
  if (event.target === range) return;
  if (event.key === "ArrowLeft") show(Number(range.value) - 1);
  if (event.key === "ArrowRight") show(Number(range.value) + 1);
}};
show(Number(location.hash.slice(1)) || 0);
</script>
</body>
</html>
"""


def rules_of(text):
    """The rules of a program by the names of their heads: the line of each, and how it is written."""
    plain = without_comments(text)
    return {frozenset(found.groups()): (plain.count("\n", 0, found.start()) + 1, text[slice(*found.span())]) for found in RULE.finditer(plain)}


class Page:
    """What the page shows of a run: how many interactions at most, and the rules of the program as they are written, where it was given."""

    def __init__(self, program, limit, rules):
        self.program, self.limit, self.rules = program, limit, rules

    def rule(self, net, pair):
        """The rule of a pair, and where it stands."""
        names = frozenset(net.symbol(agent).name for agent in pair)
        if names in self.rules:
            line, text = self.rules[names]
            return f"of line {line}", text
        return "", rule_text(self.program, self.program.rules[net.rule_of(pair)])

    def coming(self, net, pair):
        """What comes next: the active pair and its rule, that none is left, or that the page ends here."""
        if pair is None:
            return "<p>No active pair is left.</p>"
        if net.interactions == self.limit:
            return f"<p>{html.escape(self.end())}</p>"
        names = " &gt;&lt; ".join(html.escape(net.symbol(agent).name) for agent in pair)
        where, rule = self.rule(net, pair)
        return f'<p>Next: the active pair <span class="pair">{names}</span>, by the rule {where}</p>\n<pre>{html.escape(rule)}</pre>'

    def end(self):
        return f"The page ends here, after {self.limit} interactions, and the run goes on: `--limit N` shows more."

    def section(self, net, pair):
        """The net after its interactions so far, and what comes next."""
        picture = svg(dot(net, pair))
        figure = f"<figure>{picture}</figure>" if picture else "<p>(No picture: Graphviz isn't there.)</p>"
        count = f"{net.interactions} interaction{'' if net.interactions == 1 else 's'}"
        lines = html.escape("\n".join(net.lines()))
        return f"<section>\n<h2>After {count}</h2>\n{figure}\n<pre>{lines}</pre>\n{self.coming(net, pair)}\n</section>"

    def sections(self, choose):
        """A section for the net at the start, and one after each interaction; and whether the run goes on behind them."""
        net, parts = Net.initial(self.program), []
        while True:
            pair = choose(net.queue) if net.queue else None
            parts.append(self.section(net, pair))
            if pair is None or net.interactions == self.limit:
                return parts, pair is not None
            net.interact(pair)


def main():
    words = argparse.ArgumentParser(description=__doc__, formatter_class=argparse.RawDescriptionHelpFormatter)
    words.add_argument("--program", metavar="PROGRAM.inet", help="the program itself, for its own names, lines and title")
    words.add_argument("--order", choices=("queue", "stack", "random"), default="queue", help="queue, that of `inet run`, if none is named")
    words.add_argument("--seed", type=streams.natural, default=0)
    words.add_argument("--limit", type=streams.natural, default=USUAL_STEPS, metavar="N", help=f"the most interactions, {USUAL_STEPS} if it isn't given")
    words.add_argument("--title", help="another title of the page")
    asked = words.parse_args()
    rules = rules_of(streams.read_file(asked.program)) if asked.program else {}
    page = Page(Program.read(), asked.limit, rules)
    parts, goes_on = page.sections(chooser(asked.order, asked.seed))
    title = asked.title or (os.path.basename(asked.program) if asked.program else "A run, step by step")
    streams.write(PAGE.format(title=html.escape(title), last=len(parts) - 1, sections="\n".join(parts)))
    if goes_on:
        streams.tell(page.end())


if __name__ == "__main__":
    streams.run(main)
