// A sequential reducer in plain Rust with unchecked memory, written by hand for speed: what `bench/run` measures `inet` against.
//
// reducer LIMIT TIMES [net] < TEXT      reduces the net of the text, TIMES times anew in the same memory, with LIMIT interactions
// at most, and prints: interactions, agents left, the most cells that were taken, nanoseconds of processor time that the reduction
// alone took, by the least of the times, and by the first one, which is the first to touch the memory. With `net` it then prints the
// net as `inet run` does.
//
// reducer numbers < TEXT      prints the text's program as the numbers that `bench/in_reducer_bench` reads and describes.
//
// The text is one that `inet check` accepts; nothing is checked here. All cells lie in one row of words, and an end is the number of a
// word in it: joining two ends is two stores, whatever they are ends of.
use std::alloc::{Layout, alloc_zeroed};
use std::collections::HashMap;
use std::fmt::Write;
use std::io::Read;

// ---- the program as it is written

struct Port<'t> { kind: &'t str, output: bool }

struct Symbol<'t> {
    name: &'t str,
    ports: Vec<Port<'t>>,
    /// A class has two ports that may be joined to each other. Where there is none, no wire leads from an agent back to itself, nor to
    /// its partner, since the net is semi-simple.
    loops: bool,
}

/// A term, or a head; its place is that of its first token.
struct Term<'t> {
    name: &'t str,
    place: usize,
    arguments: Vec<Term<'t>>,
}

/// Two terms and the place of what joins them.
type Equation<'t> = (Term<'t>, usize, Term<'t>);

/// Two heads, and equations.
type Rule<'t> = ([Term<'t>; 2], Vec<Equation<'t>>);

struct Reader<'t> { tokens: Vec<&'t str>, at: usize }

impl<'t> Reader<'t> {
    fn new(text: &'t str) -> Self {
        let mut tokens = vec![];
        for line in text.split('\n') {
            let mut rest = line.split('#').next().unwrap().trim_start();
            while !rest.is_empty() {
                let name = rest.find(|c: char| c.is_whitespace() || ",;:+-{}()[]~>".contains(c)).unwrap_or(rest.len());
                let length = if rest.starts_with("><") { 2 } else { name.max(1) };
                tokens.push(&rest[..length]);
                rest = rest[length..].trim_start();
            }
        }
        Reader { tokens, at: 0 }
    }

    fn take(&mut self) -> &'t str {
        self.at += 1;
        self.tokens[self.at - 1]
    }

    /// Takes the next token where it is this one.
    fn took(&mut self, token: &str) -> bool {
        let is = self.tokens.get(self.at) == Some(&token);
        self.at += is as usize;
        is
    }

    fn port(&mut self) -> Port<'t> {
        Port { kind: self.take(), output: self.take() == "+" }
    }

    fn symbol(&mut self) -> Symbol<'t> {
        let (name, _) = (self.take(), self.take());
        let (mut ports, mut loops) = (vec![self.port()], false);
        while self.took("{") {
            let first = ports.len();
            while !self.took("}") {
                let port = self.port();
                loops |= ports[first..].iter().any(|one| one.kind == port.kind && one.output != port.output);
                ports.push(port);
                self.took(",");
            }
        }
        self.take();
        Symbol { name, ports, loops }
    }

    fn term(&mut self) -> Term<'t> {
        let (place, name) = (self.at, self.take());
        let mut arguments = vec![];
        for (begin, end) in [("(", ")"), ("[", "]")] {
            if self.took(begin) {
                while !self.took(end) {
                    arguments.push(self.term());
                    self.took(",");
                }
            }
        }
        Term { name, place, arguments }
    }

    fn equations(&mut self) -> Vec<Equation<'t>> {
        let mut equations = vec![];
        self.take();
        while !self.took("}") {
            let left = self.term();
            self.take();
            equations.push((left, self.at - 1, self.term()));
            self.take();
        }
        equations
    }

    /// Symbols, rules, and the net's free names and equations.
    fn program(&mut self) -> (Vec<Symbol<'t>>, Vec<Rule<'t>>, Vec<&'t str>, Vec<Equation<'t>>) {
        let (mut symbols, mut rules, mut free) = (vec![], vec![], vec![]);
        loop {
            match self.take() {
                "type" => while self.take() != ";" {},
                "symbol" => symbols.push(self.symbol()),
                "rule" => {
                    let (one, _, other) = (self.term(), self.take(), self.term());
                    let equations = if self.took("with") { self.equations() } else { vec![] };
                    self.take();
                    rules.push(([one, other], equations));
                }
                _ => break,
            }
        }
        self.take();
        while !self.took(")") {
            free.push(self.take());
            let (_, _, _) = (self.take(), self.port(), self.took(","));
        }
        (symbols, rules, free, self.equations())
    }
}

// ---- nets and right members: agents and wires

#[derive(Clone, Copy)]
enum Point<'t> {
    Agent(usize, usize),
    /// A free end, or a boundary end.
    End(usize),
    Name(&'t str),
}

struct Body<'p, 't> {
    numbers: &'p HashMap<&'t str, usize>,
    free: HashMap<&'t str, usize>,
    /// The symbols of the agents, in the order of their names.
    agents: Vec<usize>,
    /// In the order of their places, once all is joined.
    wires: Vec<(usize, [Point<'t>; 2])>,
    /// What a name that was met once is joined to, and the latest place on the way.
    met: HashMap<&'t str, (usize, Point<'t>)>,
}

impl<'p, 't> Body<'p, 't> {
    /// Of a rule without free names, or of a net without heads: their terms are joined to boundary ends from these numbers on.
    fn new(numbers: &'p HashMap<&'t str, usize>, free: &[&'t str], heads: &[(usize, &Term<'t>)], equations: &[Equation<'t>]) -> Self {
        let free = free.iter().enumerate().map(|(k, name)| (*name, k)).collect();
        let mut body = Body { numbers, free, agents: vec![], wires: vec![], met: HashMap::new() };
        for (first, head) in heads {
            for (k, term) in head.arguments.iter().enumerate() {
                let point = body.point(term);
                body.join([Point::End(first + k), point], term.place);
            }
        }
        for (left, place, right) in equations {
            let points = [body.point(left), body.point(right)];
            body.join(points, *place);
        }
        body.wires.sort_by_key(|wire| wire.0);
        body
    }

    fn point(&mut self, term: &Term<'t>) -> Point<'t> {
        let Some(&symbol) = self.numbers.get(term.name) else {
            return self.free.get(term.name).map_or(Point::Name(term.name), |&k| Point::End(k));
        };
        let agent = self.agents.len();
        self.agents.push(symbol);
        for (k, argument) in term.arguments.iter().enumerate() {
            let point = self.point(argument);
            self.join([Point::Agent(agent, k + 1), point], argument.place);
        }
        Point::Agent(agent, 0)
    }

    fn join(&mut self, mut points: [Point<'t>; 2], mut place: usize) {
        for point in &mut points {
            let Point::Name(name) = *point else { continue };
            let Some((before, other)) = self.met.remove(name) else { continue };
            // A name at the other side is noted anew below.
            if let Point::Name(name) = other {
                self.met.remove(name);
            }
            *point = other;
            place = place.max(before);
        }
        if !points.iter().any(|point| matches!(point, Point::Name(_))) {
            self.wires.push((place, points));
        }
        for (point, to) in [(points[0], points[1]), (points[1], points[0])] {
            if let Point::Name(name) = point {
                self.met.insert(name, (place, to));
            }
        }
    }
}

// ---- cells and templates

/// The words of a cell of each class: for 2 auxiliary ports, for 8, for 16.
const SIZES: [usize; 3] = [4, 12, 24];
/// The end of all words: as many cells of each class as `inet run` may be given, and 256 free ends.
const END: usize = ((4 + 12 + 24) << 20) + 4 * 257;
/// The principal port's word, so that two ends are principal ports where both numbers end in two ones: no other end has such a number.
const PRINCIPAL: usize = 3;

fn class_of(symbol: &Symbol) -> usize {
    (symbol.ports.len() > 3) as usize + (symbol.ports.len() > 9) as usize
}

/// The word of a port within its cell, whose first word tells the symbol.
const fn word_of(place: usize) -> usize {
    if place == 0 { PRINCIPAL } else { place + place / 3 }
}

/// What an interaction knows, by slots: what the constructor's auxiliary ports lead to, from 16 what the destructor's do, the pair's own
/// cells, in which two agents of the right member may stand, and the cells of the others.
const DESTRUCTOR: usize = 16;
const KEPT: usize = 32;
const LEASED: usize = 34;
const SLOTS: usize = LEASED + 64;

/// A wire of a right member, as a slot and a word on either side, the side of type `+` first: where both are principal ports, that is
/// the constructor.
#[derive(Clone, Copy)]
struct Wire { plus: (u8, u8), minus: (u8, u8) }

struct Template {
    /// The agents' slots, and what their cells' first words are.
    agents: Vec<(u32, u32)>,
    /// Those over boundary ends, by the lower end of each, and then the others.
    wires: Vec<Wire>,
    over_ends: usize,
    leased: [u32; 3],
    arities: [usize; 2],
    /// Of each of the two cells: its class, and whether it becomes free.
    classes: [usize; 2],
    retired: [bool; 2],
    large_pair: bool,
    large_member: bool,
    loops: bool,
    /// For each slot of a boundary end: its inner side, and whether its outer side is of type `+`.
    inside: Vec<(usize, usize, bool)>,
}

fn template(symbols: &[Symbol], words: &[u32], pair: [usize; 2], body: &Body) -> Template {
    let heads = pair.map(|symbol| &symbols[symbol]);
    let (arities, classes) = (heads.map(|head| head.ports.len() - 1), heads.map(class_of));
    let agents: Vec<&Symbol> = body.agents.iter().map(|&symbol| &symbols[symbol]).collect();
    let (mut slots, mut leased, mut retired) = (vec![0; agents.len()], [0; 3], [true; 2]);
    for class in 0..3 {
        let mut kept = (0..2).filter(|&head| classes[head] == class);
        for agent in (0..agents.len()).filter(|&agent| class_of(agents[agent]) == class) {
            if let Some(head) = kept.next() {
                slots[agent] = KEPT + head;
                retired[head] = false;
            } else {
                slots[agent] = LEASED + leased.iter().sum::<u32>() as usize;
                leased[class] += 1;
            }
        }
    }
    let mut inside = vec![(0, 0, false); KEPT];
    let mut wires: Vec<(usize, Wire)> = vec![];
    for (_, wire) in &body.wires {
        let sides = wire.map(|point| match point {
            Point::Agent(agent, place) => (agents[agent].ports[place].output, slots[agent], word_of(place)),
            Point::End(end) => {
                let (head, k) = if end < arities[0] { (0, end) } else { (1, end - arities[0]) };
                (!heads[head].ports[k + 1].output, head * DESTRUCTOR + k, 0)
            }
            Point::Name(_) => unreachable!(),
        });
        let [plus, minus] = if sides[0].0 { sides } else { [sides[1], sides[0]] };
        for (one, other) in [(plus, minus), (minus, plus)] {
            if one.1 < KEPT {
                inside[one.1] = (other.1, other.2, one.0);
            }
        }
        let made = Wire { plus: (plus.1 as u8, plus.2 as u8), minus: (minus.1 as u8, minus.2 as u8) };
        wires.push((plus.1.min(minus.1).min(KEPT), made));
    }
    wires.sort_by_key(|wire| wire.0);
    Template {
        agents: slots.iter().zip(&body.agents).map(|(slot, symbol)| (*slot as u32, words[*symbol])).collect(),
        over_ends: wires.iter().filter(|wire| wire.0 < KEPT).count(),
        wires: wires.into_iter().map(|wire| wire.1).collect(),
        leased,
        arities,
        classes,
        retired,
        large_pair: classes != [0, 0],
        large_member: leased[1] + leased[2] > 0,
        loops: heads.iter().any(|head| head.loops),
        inside,
    }
}

/// What is over boundary ends where an outer wire may lead from one of the pair's ports to another: by the lowest end each.
#[cold] #[inline(never)]
fn over_ends(template: &Template, points: &[u32; SLOTS], cells: [usize; 2]) -> Vec<(usize, usize)> {
    let (mut found, mut done) = (vec![], [false; KEPT]);
    for first in (0..template.arities[0]).chain(DESTRUCTOR..DESTRUCTOR + template.arities[1]) {
        let walk = |done: &mut [bool; KEPT], mut end: usize, mut outward: bool| loop {
            done[end] = true;
            let (slot, word, _) = if outward { (end, 0, true) } else { template.inside[end] };
            let point = points[slot] as usize + word;
            let own = (0..2).find(|&head| point.wrapping_sub(cells[head]) < SIZES[template.classes[head]]);
            end = match own {
                Some(head) if outward => head * DESTRUCTOR + (1..).position(|place| word_of(place) == point - cells[head]).unwrap(),
                _ if !outward && slot < KEPT => slot,
                _ => return point,
            };
            outward = !outward;
        };
        if !done[first] {
            let (outer, inner) = (walk(&mut done, first, true), walk(&mut done, first, false));
            found.push(if template.inside[first].2 { (outer, inner) } else { (inner, outer) });
        }
    }
    found
}

// ---- the machine

/// What an interaction changes. It is copied, so that a reduction keeps it in registers.
#[derive(Clone, Copy)]
struct State {
    words: *mut u32,
    /// The first free cell of each class, each of which leads to the next; 0 is none.
    free: [u32; 3],
    /// From here on no cell was ever taken.
    fresh: usize,
    taken: [usize; 3],
    /// Pairs, the constructor's cell in the lower half, in a ring whose size is a power of two.
    queue: *mut u64,
    mask: usize,
    head: usize,
    tail: usize,
}

/// Zeros that are never given back, since there is one state.
fn row<T>(count: usize) -> *mut T {
    let row = unsafe { alloc_zeroed(Layout::array::<T>(count).unwrap()) as *mut T };
    assert!(!row.is_null());
    row
}

impl State {
    #[inline(always)]
    unsafe fn lease(&mut self, class: usize) -> usize {
        let cell = self.free[class] as usize;
        if cell != 0 {
            self.free[class] = unsafe { *self.words.add(cell) };
            return cell;
        }
        let cell = self.fresh;
        self.fresh += SIZES[class];
        self.taken[class] += 1;
        assert!(self.fresh <= END);
        cell
    }

    /// Joins two ends, of which the first one is of type `+`; the queue has room for a pair.
    #[inline(always)]
    unsafe fn join(&mut self, plus: usize, minus: usize) {
        unsafe {
            *self.words.add(plus) = minus as u32;
            *self.words.add(minus) = plus as u32;
            if plus & minus & 3 == PRINCIPAL {
                *self.queue.add(self.tail & self.mask) = (plus - PRINCIPAL) as u64 | ((minus - PRINCIPAL) as u64) << 32;
                self.tail += 1;
            }
        }
    }

    /// With a queue of twice the size.
    #[cold] #[inline(never)]
    fn grown(self) -> State {
        let mask = 2 * self.mask + 1;
        let queue = row::<u64>(mask + 1);
        for k in self.head..self.tail {
            unsafe { *queue.add(k & mask) = *self.queue.add(k & self.mask) };
        }
        State { queue, mask, ..self }
    }

    fn start(&mut self, symbols: &[Symbol], words: &[u32], net: &Body) {
        let mut state = State { free: [0; 3], fresh: 4 * (net.free.len() + 1), taken: [0; 3], head: 0, tail: 0, ..*self };
        let cells: Vec<usize> = net.agents.iter().map(|&symbol| unsafe { state.lease(class_of(&symbols[symbol])) }).collect();
        for (&symbol, &cell) in net.agents.iter().zip(&cells) {
            unsafe { *state.words.add(cell) = words[symbol] };
        }
        for (_, wire) in &net.wires {
            let mut ends = wire.map(|point| match point {
                Point::Agent(agent, place) => cells[agent] + word_of(place),
                Point::End(end) => 4 * (end + 1),
                Point::Name(_) => unreachable!(),
            });
            if !matches!(wire[0], Point::Agent(agent, place) if symbols[net.agents[agent]].ports[place].output) {
                ends.reverse();
            }
            if state.tail - state.head == state.mask {
                state = state.grown();
            }
            unsafe { state.join(ends[0], ends[1]) };
        }
        *self = state;
    }

    #[inline(never)]
    fn reduce(&mut self, table: &[Option<Template>], limit: u64) -> u64 {
        let mut state = *self;
        let words = state.words;
        let mut points = [0u32; SLOTS];
        let mut count = 0;
        while state.head != state.tail && count != limit {
            unsafe {
                let pair = *state.queue.add(state.head & state.mask);
                state.head += 1;
                count += 1;
                // The cells of a pair that comes soon: the queue tells long before what is needed.
                #[cfg(target_arch = "x86_64")]
                for half in [0, 32] {
                    use std::arch::x86_64::{_MM_HINT_T0, _mm_prefetch};
                    let soon = *state.queue.add((state.head + 3) & state.mask);
                    _mm_prefetch(words.wrapping_add((soon >> half) as u32 as usize) as *const i8, _MM_HINT_T0);
                }
                let cells = [pair as u32 as usize, (pair >> 32) as usize];
                let [one, two] = cells.map(|cell| words.add(cell));
                let template = table.get_unchecked((*one + *two) as usize).as_ref().unwrap_unchecked();
                let at = points.as_mut_ptr();
                *at = *one.add(1);
                *at.add(1) = *one.add(2);
                *at.add(DESTRUCTOR) = *two.add(1);
                *at.add(DESTRUCTOR + 1) = *two.add(2);
                if template.large_pair {
                    for (head, cell) in [one, two].iter().enumerate() {
                        for place in 3..=template.arities[head] {
                            *at.add(head * DESTRUCTOR + place - 1) = *cell.add(word_of(place));
                        }
                    }
                }
                *at.add(KEPT) = cells[0] as u32;
                *at.add(KEPT + 1) = cells[1] as u32;
                let mut slot = at.add(LEASED);
                for class in 0..if template.large_member { 3 } else { 1 } {
                    for _ in 0..template.leased[class] {
                        *slot = state.lease(class) as u32;
                        slot = slot.add(1);
                    }
                }
                for &(slot, word) in &template.agents {
                    *words.add(*at.add(slot as usize) as usize) = word;
                }
                while state.tail - state.head + template.wires.len() > state.mask {
                    state = state.grown();
                }
                let mut wires = template.wires.as_slice();
                if template.loops {
                    for (plus, minus) in over_ends(template, &points, cells) {
                        state.join(plus, minus);
                    }
                    wires = &wires[template.over_ends..];
                }
                for wire in wires {
                    let plus = *at.add(wire.plus.0 as usize) as usize + wire.plus.1 as usize;
                    let minus = *at.add(wire.minus.0 as usize) as usize + wire.minus.1 as usize;
                    state.join(plus, minus);
                }
                for head in 0..2 {
                    if template.retired[head] {
                        let first = &mut state.free[template.classes[head]];
                        *words.add(cells[head]) = *first;
                        *first = cells[head] as u32;
                    }
                }
            }
        }
        *self = state;
        count
    }

    fn agents(&self) -> usize {
        let next = |cell: &usize| Some(self.word(*cell)).filter(|next| *next != 0);
        let first = |cell: &u32| Some(*cell as usize).filter(|first| *first != 0);
        let free = self.free.iter().flat_map(|cell| std::iter::successors(first(cell), next));
        self.taken.iter().sum::<usize>() - free.count()
    }

    fn word(&self, number: usize) -> usize {
        unsafe { *self.words.add(number) as usize }
    }

    /// The net's lines, as `inet run` prints them.
    fn net(&self, symbols: &[Symbol], words: &[u32], free: &[&str]) -> String {
        let named: HashMap<u32, &Symbol> = words.iter().copied().zip(symbols).collect();
        let (mut text, mut variables) = (String::new(), HashMap::new());
        // What is still to be written, the next one last: where an end leads, or signs. A pair's ports lead to each other.
        let mut left: Vec<Result<usize, &str>> = vec![];
        for k in (self.head..self.tail).rev() {
            let pair = unsafe { *self.queue.add(k & self.mask) };
            let [one, two] = [pair as u32 as usize, (pair >> 32) as usize].map(|cell| Ok(cell + PRINCIPAL));
            left.extend([Err("\n"), one, Err(" ~ "), two]);
        }
        for (k, name) in free.iter().enumerate().rev() {
            left.extend([Err("\n"), Ok(4 * (k + 1)), Err(" = "), Err(*name)]);
        }
        while let Some(next) = left.pop() {
            match next.map(|end| (end, self.word(end))) {
                Err(signs) => text += signs,
                Ok((end, to)) if to & 3 != PRINCIPAL => {
                    let count = variables.len() + 1;
                    write!(text, "v{}", variables.entry(end.min(to)).or_insert(count)).unwrap();
                }
                Ok((_, to)) => {
                    let symbol = named[&(self.word(to - PRINCIPAL) as u32)];
                    text += symbol.name;
                    let arity = symbol.ports.len() - 1;
                    for place in (1..=arity).rev() {
                        left.extend([Err(if place == arity { ")" } else { ", " }), Ok(to - PRINCIPAL + word_of(place))]);
                    }
                    text += if arity > 0 { "(" } else { "" };
                }
            }
        }
        text
    }
}

// ---- the program as numbers

/// The body's symbols and wires, after what stands before them on the line.
fn line_of(before: String, body: &Body) -> String {
    let mut line = format!("{before}{}", body.agents.len());
    for symbol in &body.agents {
        write!(line, " {symbol}").unwrap();
    }
    write!(line, " {}", body.wires.len()).unwrap();
    for point in body.wires.iter().flat_map(|wire| wire.1) {
        match point {
            Point::Agent(agent, place) => write!(line, " 0 {agent} {place}").unwrap(),
            Point::End(end) => write!(line, " 1 {end}").unwrap(),
            Point::Name(_) => unreachable!(),
        }
    }
    line
}

fn print_numbers(symbols: &[Symbol], rules: &[([usize; 2], Body)], net: &Body) {
    println!("{}", symbols.len());
    for symbol in symbols {
        println!("{} {}", symbol.ports.len() - 1, symbol.ports[0].output as u32);
    }
    println!("{}", rules.len());
    for ([constructor, destructor], body) in rules {
        println!("{}", line_of(format!("{constructor} {destructor} "), body));
    }
    println!("{}\n{}", line_of(String::new(), net), net.free.len());
}

// ---- the command

unsafe extern "C" {
    /// Seconds and nanoseconds.
    fn clock_gettime(clock: i32, time: *mut [i64; 2]) -> i32;
}

/// By the clock of this thread's processor time.
fn nanoseconds() -> i64 {
    let mut time = [0; 2];
    unsafe { clock_gettime(3, &mut time) };
    time[0] * 1_000_000_000 + time[1]
}

fn main() {
    let arguments: Vec<String> = std::env::args().collect();
    let mut text = String::new();
    std::io::stdin().read_to_string(&mut text).unwrap();
    let (symbols, rules, free, equations) = Reader::new(&text).program();
    let numbers: HashMap<&str, usize> = symbols.iter().enumerate().map(|(k, symbol)| (symbol.name, k)).collect();
    // A constructor's word is a multiple of the number of symbols, and a destructor's is below it, so that their sum tells both.
    let word = |(k, symbol): (usize, &Symbol)| if symbol.ports[0].output { (k + 1) * symbols.len() } else { k } as u32;
    let words: Vec<u32> = symbols.iter().enumerate().map(word).collect();
    // Templates by the sum of the first words of constructor and destructor.
    let mut table: Vec<Option<Template>> = (0..(symbols.len() + 1) * (symbols.len() + 1)).map(|_| None).collect();
    let mut bodies = vec![];
    for (heads, equations) in &rules {
        let mut pair = [numbers[heads[0].name], numbers[heads[1].name]];
        // The constructor's ends come first, whichever head is written first.
        let mut first = [0, heads[0].arguments.len()];
        if !symbols[pair[0]].ports[0].output {
            pair.reverse();
            first = [heads[1].arguments.len(), 0];
        }
        let body = Body::new(&numbers, &[], &[(first[0], &heads[0]), (first[1], &heads[1])], equations);
        table[(words[pair[0]] + words[pair[1]]) as usize] = Some(template(&symbols, &words, pair, &body));
        bodies.push((pair, body));
    }
    let net = Body::new(&numbers, &free, &[], &equations);
    if arguments[1] == "numbers" {
        return print_numbers(&symbols, &bodies, &net);
    }
    let (limit, times): (u64, u32) = (arguments[1].parse().unwrap(), arguments[2].parse().unwrap());
    let mut state = State { words: row(END), free: [0; 3], fresh: 0, taken: [0; 3], queue: row(64), mask: 63, head: 0, tail: 0 };
    let (mut count, mut spent) = (0, vec![]);
    for _ in 0..times {
        state.start(&symbols, &words, &net);
        let began = nanoseconds();
        count = state.reduce(&table, limit);
        spent.push(nanoseconds() - began);
    }
    let most: usize = state.taken.iter().sum();
    println!("{count} {} {most} {} {}", state.agents(), spent.iter().min().unwrap(), spent[0]);
    if arguments.len() > 3 {
        print!("{}", state.net(&symbols, &words, &free));
    }
}
