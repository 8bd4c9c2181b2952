// The exercises of the lessons: each belongs to a section of docs/use/TUTORIAL.md, and says what has to be printed. Not proved; the tests try each
// with its start, which must fail, and its solution.

const numeral = count => "S(".repeat(count) + "Z" + ")".repeat(count);
const NUMBERS = "type nat;\nsymbol Z : nat+;\nsymbol S : nat+ {nat-};\n";
const ADD = "symbol Add : nat- {nat-} {nat+};\nrule S[Add(y, sum)] >< Add[y, S(sum)];\nrule Z[] >< Add[y, y];\n";
const DUP = "symbol Dup : nat- {nat+, nat+};\nrule S[Dup(one, other)] >< Dup[S(one), S(other)];\nrule Z[] >< Dup[Z, Z];\n";
const ERA = "symbol Era : nat-;\nrule S[Era] >< Era[];\nrule Z[] >< Era[];\n";
const MUL = "symbol Mul : nat- {nat-} {nat+};\nrule S[Mul(one, Add(other, product))] >< Mul[Dup(one, other), product];\nrule Z[] >< Mul[Era, Z];\n";

// A program of these parts and a net, in which a term meets another one that gives `result`.
const program = (parts, net) => `${parts.join("\n")}\n${net}`;
const net = (one, other) => `net (result : nat+) {\n    ${one} ~ ${other};\n}\n`;
const upTo = count => Array.from({ length: count + 1 }, (_, number) => number);

// That a symbol which takes one number, or two, computes what this function does: checked with nets of the exercise's own.
const unary = (symbol, result, most) => upTo(most).map(n => ({ says: `${symbol} of ${n} is ${result(n)}`, net: net(numeral(n), `${symbol}(result)`), lines: [`result = ${numeral(result(n))}`] }));
const binary = (symbol, result, most) => upTo(most).flatMap(m => upTo(most).map(n => ({ says: `${symbol} of ${m} and ${n} is ${result(m, n)}`, net: net(numeral(m), `${symbol}(${numeral(n)}, result)`), lines: [`result = ${numeral(result(m, n))}`] })));

export const EXERCISES = [
  {
    section: "one-step-by-hand",
    title: "Three and two",
    task: "Change the net, so that it adds three and two. Before you run it: how many interactions will there be?",
    start: program([NUMBERS, ADD], net("S(S(Z))", "Add(S(Z), result)")),
    checks: [{ says: "the result is five", lines: [`result = ${numeral(5)}`] }, { says: "Add met the three: four interactions", lines: ["interactions: 4"] }],
    solution: program([NUMBERS, ADD], net("S(S(S(Z)))", "Add(S(S(Z)), result)")),
  },
  {
    section: "each-value-needs-a-duplicator-and-an-eraser",
    title: "The first of two",
    task: "First meets a number, and has a second one and the result at its auxiliary ports. The result is the first number. Write its two rules: what becomes of the second number?",
    start: program([NUMBERS, ERA, "symbol First : nat- {nat-} {nat+};\n"], net("S(Z)", "First(S(S(S(Z))), result)")),
    checks: binary("First", m => m, 2),
    solution: program([NUMBERS, ERA, "symbol First : nat- {nat-} {nat+};\nrule S[x] >< First[Era, S(x)];\nrule Z[] >< First[Era, Z];\n"], net("S(Z)", "First(S(S(S(Z))), result)")),
  },
  {
    section: "equations-in-a-rule",
    title: "The square",
    task: "Write the two rules of Square, which gives a number times itself. When S meets Square, the number is the successor of what is at S's port.",
    start: program([NUMBERS, ADD, DUP, ERA, MUL, "symbol Square : nat- {nat+};\n"], net("S(S(Z))", "Square(result)")),
    checks: unary("Square", n => n * n, 4),
    solution: program([NUMBERS, ADD, DUP, ERA, MUL, "symbol Square : nat- {nat+};\nrule Z[] >< Square[Z];\nrule S[before] >< Square[all] with {\n    S(before) ~ Dup(one, other);\n    one ~ Mul(other, all);\n};\n"], net("S(S(Z))", "Square(result)")),
  },
  {
    section: "braces",
    title: "Braces to mend",
    task: "This program is refused. Say why before you read the diagnosis, and mend one declaration.",
    start: program([NUMBERS, ADD.replace("{nat-} {nat+}", "{nat-, nat+}")], net("S(Z)", "Add(Z, result)")),
    checks: [{ says: "the program is accepted, and the result is one", lines: ["result = S(Z)"] }],
    solution: program([NUMBERS, ADD], net("S(Z)", "Add(Z, result)")),
  },
  {
    section: "a-refused-program-mended",
    title: "A circle to open",
    task: "Here each Add waits for the other one's sum. Change the net, so that the program is accepted and the result is three.",
    start: program([NUMBERS, ADD], "net (result : nat+) {\n    one ~ Add(S(Z), other);\n    other ~ Add(S(Z), Dup(one, result));\n}\n").replace("\nnet", `\n${DUP}\nnet`),
    checks: [{ says: "the program is accepted, and the result is three", lines: ["result = S(S(S(Z)))"] }],
    solution: program([NUMBERS, ADD, DUP], "net (result : nat+) {\n    S(Z) ~ Add(S(Z), other);\n    other ~ Add(S(Z), result);\n}\n"),
  },
  {
    section: "two-exercises",
    title: "The greater of two numbers",
    task: "Keep the name Max, and its ports: the second number, and the result. Further symbols are yours to name.",
    start: program([NUMBERS, "symbol Max : nat- {nat-} {nat+};\n"], net("S(S(Z))", "Max(S(S(S(Z))), result)")),
    checks: binary("Max", Math.max, 3),
    solution: "greater_of_two",
  },
  {
    section: "two-exercises",
    title: "The sum of all numbers up to n",
    task: "Keep the name SumTo, and its port: the result.",
    start: program([NUMBERS, ADD, DUP, "symbol SumTo : nat- {nat+};\n"], net("S(S(S(Z)))", "SumTo(result)")),
    checks: unary("SumTo", n => (n * (n + 1)) / 2, 5),
    solution: "sum_up_to",
  },
];

// The text with another net in the place of its own.
export function withNet(text, other) {
  const own = [...text.matchAll(/^[ \t]*net\b/gm)].at(-1);
  return other === undefined ? text : (own ? text.slice(0, own.index) : `${text}\n`) + other;
}

// Which checks of an exercise a text passes; `run` answers what the runner prints of a text.
export async function checked(exercise, text, run) {
  const passed = [];
  for (const { net: other, lines } of exercise.checks) {
    const printed = (await run(withNet(text, other))).split("\n");
    passed.push(lines.every(line => printed.includes(line)));
  }
  return passed;
}
