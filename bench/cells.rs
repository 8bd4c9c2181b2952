// The turns of `bench/in_arena_bench` in plain Rust: the same calls, with unchecked pointers. Built and run by `bench/cells`.
use std::alloc::{Layout, alloc, dealloc};
use std::time::Instant;

const TURNS: u32 = 20_000_000;

#[derive(Clone, Copy)]
struct CellNo(u32);

#[derive(Clone, Copy)]
enum End {
    Cell(CellNo, u8),
    Free(u32),
}

#[derive(Clone, Copy)]
enum CellClass {
    Small,
    Large,
}

#[derive(Clone, Copy)]
struct Stored {
    number: u32,
    place: u8,
    free: bool,
}

impl Stored {
    fn of(end: End) -> Stored {
        match end {
            End::Cell(cell, place) => Stored { number: cell.0, place, free: false },
            End::Free(number) => Stored { number, place: 0, free: true },
        }
    }

    fn end(self) -> End {
        if self.free { End::Free(self.number) } else { End::Cell(CellNo(self.number), self.place) }
    }
}

struct Content<const WIDTH: usize> {
    word: u32,
    count: u32,
    ends: [Stored; WIDTH],
}

struct Region<const WIDTH: usize> {
    base: *mut Content<WIDTH>,
    size: u32,
    next: u32,
    free: u32,
}

struct Held<const WIDTH: usize> {
    index: u32,
    base: *mut Content<WIDTH>,
}

impl<const WIDTH: usize> Held<WIDTH> {
    fn write(&mut self, word: u32, ends: &[End]) {
        unsafe {
            let content = self.base.add(self.index as usize);
            (*content).word = word;
            (*content).count = ends.len() as u32;
            let places = (&raw mut (*content).ends).cast::<Stored>();
            for (place, end) in ends.iter().enumerate() {
                *places.add(place) = Stored::of(*end);
            }
        }
    }
}

impl<const WIDTH: usize> Region<WIDTH> {
    fn layout(size: u32) -> Layout {
        Layout::array::<Content<WIDTH>>(size as usize).unwrap()
    }

    fn new(size: u32) -> Self {
        let base = unsafe { alloc(Self::layout(size)) as *mut Content<WIDTH> };
        for index in 0..size {
            let ends = [Stored { number: 0, place: 0, free: true }; WIDTH];
            unsafe { base.add(index as usize).write(Content { word: index + 1, count: 0, ends }) };
        }
        Region { base, size, next: 0, free: size }
    }

    fn at(&self, index: u32) -> *mut Content<WIDTH> {
        unsafe { self.base.add(index as usize) }
    }

    fn place(&self, index: u32, place: u8) -> *mut Stored {
        unsafe { (&raw mut (*self.at(index)).ends).cast::<Stored>().add(place as usize) }
    }

    fn lease(&mut self) -> Option<Held<WIDTH>> {
        if self.next == self.size {
            return None;
        }
        let index = self.next;
        self.next = unsafe { (*self.at(index)).word };
        self.free -= 1;
        Some(Held { index, base: self.base })
    }

    fn retire(&mut self, index: u32) {
        unsafe {
            (*self.at(index)).word = self.next;
            (*self.at(index)).count = 0;
        }
        self.next = index;
        self.free += 1;
    }
}

impl<const WIDTH: usize> Drop for Region<WIDTH> {
    fn drop(&mut self) {
        unsafe { dealloc(self.base as *mut u8, Self::layout(self.size)) }
    }
}

enum HeldCell {
    Small(Held<3>),
    Large(Held<9>),
}

struct Lease {
    number: u32,
    held: HeldCell,
}

impl Lease {
    fn cell(&self) -> CellNo {
        CellNo(self.number)
    }

    fn write(&mut self, symbol: u32, ends: &[End]) {
        match &mut self.held {
            HeldCell::Small(held) => held.write(symbol, ends),
            HeldCell::Large(held) => held.write(symbol, ends),
        }
    }
}

struct Arena {
    small: Region<3>,
    large: Region<9>,
    cells: u32,
}

impl Arena {
    fn new(cells: u32) -> Arena {
        Arena { small: Region::new(cells), large: Region::new(cells), cells }
    }

    fn lease(&mut self, class: CellClass) -> Option<Lease> {
        match class {
            CellClass::Small => self.small.lease().map(|held| Lease { number: held.index, held: HeldCell::Small(held) }),
            CellClass::Large => {
                self.large.lease().map(|held| Lease { number: self.cells + held.index, held: HeldCell::Large(held) })
            }
        }
    }

    fn settle(&mut self, lease: Lease) {
        let Lease { number: _, held: _ } = lease;
    }

    fn symbol(&self, cell: CellNo) -> u32 {
        unsafe {
            if cell.0 < self.cells {
                (*self.small.at(cell.0)).word
            } else {
                (*self.large.at(cell.0 - self.cells)).word
            }
        }
    }

    fn place(&self, cell: CellNo, place: u8) -> *mut Stored {
        if cell.0 < self.cells { self.small.place(cell.0, place) } else { self.large.place(cell.0 - self.cells, place) }
    }

    fn port(&self, cell: CellNo, place: u8) -> End {
        unsafe { (*self.place(cell, place)).end() }
    }

    fn set_port(&mut self, cell: CellNo, place: u8, end: End) {
        unsafe { *self.place(cell, place) = Stored::of(end) }
    }

    fn retire(&mut self, cell: CellNo) {
        if cell.0 < self.cells {
            self.small.retire(cell.0)
        } else {
            self.large.retire(cell.0 - self.cells)
        }
    }
}

#[inline(always)]
fn turn(arena: &mut Arena, class: CellClass, number: u32, word: u32, last: u32, ends: &mut [End]) -> Option<u32> {
    unsafe {
        *ends.get_unchecked_mut(0) = End::Cell(CellNo(number), 1);
        *ends.get_unchecked_mut(1) = End::Free(word);
        *ends.get_unchecked_mut(2) = End::Free(last);
    }
    arena.retire(CellNo(number));
    let mut lease = arena.lease(class)?;
    lease.write(word, ends);
    let cell = lease.cell();
    arena.settle(lease);
    let one = arena.port(cell, 1);
    arena.set_port(cell, 2, one);
    let two = arena.port(cell, 2);
    arena.set_port(cell, 0, two);
    Some(arena.symbol(cell))
}

#[inline(never)]
fn turns(mut arena: Arena, all: u32, class: CellClass, first: u32, mask: u32, count: u32, ends: &mut [End]) -> u32 {
    let mut last = 0u32;
    let mut place = 0u32;
    for word in 0..count {
        place = place.wrapping_mul(1_664_525).wrapping_add(1_013_904_223);
        let number = first.wrapping_add(place & mask);
        if number >= all {
            return last;
        }
        let Some(read) = turn(&mut arena, class, number, word, last, ends) else {
            return last;
        };
        last = last.wrapping_add(read);
    }
    last
}

#[inline(never)]
fn turns_of_two(mut one: Arena, mut other: Arena, all: u32, mask: u32, count: u32, ends: &mut [End]) -> u32 {
    let mut last = 0u32;
    let mut place = 0u32;
    for word in 0..count {
        place = place.wrapping_mul(1_664_525).wrapping_add(1_013_904_223);
        let number = place & mask;
        if number >= all {
            return last;
        }
        let read = if place < 0x8000_0000 {
            turn(&mut one, CellClass::Small, number, word, last, ends)
        } else {
            turn(&mut other, CellClass::Small, number, word, last, ends)
        };
        let Some(read) = read else {
            return last;
        };
        last = last.wrapping_add(read);
    }
    last
}

fn full(cells: u32) -> Arena {
    let mut arena = Arena::new(cells);
    for _ in 0..cells {
        for (class, count) in [(CellClass::Small, 3), (CellClass::Large, 9)] {
            let mut lease = arena.lease(class).unwrap();
            lease.write(0, &[End::Free(0); 9][..count]);
            arena.settle(lease);
        }
    }
    arena
}

fn measure(name: &str, cells: u32, class: CellClass, first: u32, ends: &mut [End]) {
    let arena = full(cells);
    let start = Instant::now();
    let read = turns(arena, cells + cells, class, first, cells - 1, TURNS, ends);
    println!("{name} {cells} {TURNS} {} {read}", start.elapsed().as_nanos());
}

fn main() {
    for cells in [256, 1_048_576] {
        measure("small", cells, CellClass::Small, 0, &mut [End::Free(0); 3]);
        measure("large", cells, CellClass::Large, cells, &mut [End::Free(0); 9]);
    }
    let cells = 1_048_576;
    let (one, other) = (full(cells), full(cells));
    let start = Instant::now();
    let read = turns_of_two(one, other, cells + cells, cells - 1, TURNS, &mut [End::Free(0); 3]);
    println!("small-of-two {cells} {TURNS} {} {read}", start.elapsed().as_nanos());
}
