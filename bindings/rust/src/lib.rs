//! The checker and the runner of programs of interaction nets (Lafont 1990), over the proved library libinet. This crate isn't proved itself:
//! it calls the functions of `include/inet.h` with buffers of their own size, and needs no other crate.
//!
//! ```
//! let answer = inet::check("net () { }");
//! assert_eq!(answer.status, inet::Status::Ok);
//! assert_eq!(answer.bytes, b"accepted: 0 types, 0 symbols, 0 rules, 0 agents\n");
//! ```
use std::borrow::Cow;
use std::cell::Cell;
use std::os::raw::c_uchar;

mod calls {
    use super::{Fault, State, Step};
    use std::os::raw::c_uchar;

    extern "C" {
        pub fn inet_version() -> u32;
    }

    /// Each call on a text, and the one of the same form for a text with the large limits.
    macro_rules! declared {
        ($($usual:ident $large:ident $taken:tt;)*) => {
            extern "C" {
                $(pub fn $usual $taken -> c_uchar; pub fn $large $taken -> c_uchar;)*
            }
        };
    }

    declared! {
        inet_check inet_check_large (text: *const u8, text_length: usize, room: *mut u8, room_size: usize, length: *mut usize);
        inet_derive inet_derive_large (text: *const u8, text_length: usize, room: *mut u8, room_size: usize, length: *mut usize);
        inet_diagnose inet_diagnose_large (text: *const u8, text_length: usize, room: *mut u8, room_size: usize, length: *mut usize);
        inet_diagnose_data inet_diagnose_data_large (text: *const u8, text_length: usize, room: *mut u8, room_size: usize, length: *mut usize);
        inet_export inet_export_large (text: *const u8, text_length: usize, room: *mut u8, room_size: usize, length: *mut usize);
        inet_run inet_run_large (text: *const u8, text_length: usize, limit: u64, cells: u32, room: *mut u8, room_size: usize, length: *mut usize);
        inet_run_by inet_run_by_large (text: *const u8, text_length: usize, choices: *const u32, choice_count: usize, limit: u64, cells: u32, state: *mut State, room: *mut u8, room_size: usize, length: *mut usize);
        inet_refusal inet_refusal_large (text: *const u8, text_length: usize, fault: *mut Fault);
        inet_verify inet_verify_large (text: *const u8, text_length: usize, number: u32, steps: *const Step, step_count: usize, parts: *const u32, part_count: usize);
    }
}

/// What a call answers: the exit status of the program `inet`.
#[derive(Clone, Copy, Debug, PartialEq, Eq)]
pub enum Status {
    /// The text is accepted; for a run: no active pair is left; for steps: they build it.
    Ok,
    /// The text is refused.
    Refused,
    /// The limit or the cells are out of range; for steps: they don't build it.
    WrongNumbers,
    /// A run did as many interactions as are allowed.
    Limit,
    /// A run had too few cells.
    Full,
    /// Out of memory.
    Memory,
}

impl Status {
    fn of(number: c_uchar) -> Status {
        match number {
            0 => Status::Ok,
            1 => Status::Refused,
            2 => Status::WrongNumbers,
            3 => Status::Limit,
            4 => Status::Full,
            _ => Status::Memory,
        }
    }

    /// The exit status of the program.
    pub fn code(self) -> u8 {
        self as u8
    }
}

/// A status, and the bytes that the program writes.
#[derive(Clone, Debug, PartialEq, Eq)]
pub struct Answer {
    pub status: Status,
    pub bytes: Vec<u8>,
}

impl Answer {
    /// The bytes as text; what is no UTF-8 in a program's text is U+FFFD here.
    pub fn text(&self) -> Cow<'_, str> {
        String::from_utf8_lossy(&self.bytes)
    }
}

/// Why a text is refused, as numbers: `struct inet_fault` of `inet.h`.
#[repr(C)]
#[derive(Clone, Copy, Debug, Default, PartialEq, Eq)]
pub struct Fault {
    pub code: u32,
    pub line: u32,
    pub column: u32,
    pub from: usize,
    pub to: usize,
    pub other_from: usize,
    pub other_to: usize,
}

/// Where a run stands: `struct inet_state` of `inet.h`.
#[repr(C)]
#[derive(Clone, Copy, Debug, Default, PartialEq, Eq)]
pub struct State {
    pub chosen: u64,
    pub further: u64,
    pub pairs: u32,
    pub agents: u32,
}

/// A step as numbers: `struct inet_step` of `inet.h`.
#[repr(C)]
#[derive(Clone, Copy, Debug, Default, PartialEq, Eq)]
pub struct Step {
    pub kind: u32,
    pub first: u32,
    pub second: u32,
    pub third: u32,
}

/// The whole answer of a call: it is asked again where it is longer than the first room.
fn whole(call: impl Fn(*mut u8, usize, *mut usize) -> c_uchar) -> Answer {
    let mut bytes = vec![0; 4096];
    loop {
        let mut length = 0;
        let status = Status::of(call(bytes.as_mut_ptr(), bytes.len(), &mut length));
        let fits = length <= bytes.len();
        bytes.resize(length, 0);
        if fits {
            return Answer { status, bytes };
        }
    }
}

/// A call whose answer is bytes alone.
macro_rules! answer {
    ($(#[$doc:meta])* $name:ident $call:ident) => {
        $(#[$doc])*
        pub fn $name(text: impl AsRef<[u8]>) -> Answer {
            let text = text.as_ref();
            // SAFETY: the text and the room are lent for the call, have these sizes and don't overlap; no pointer is null.
            whole(|room, size, length| unsafe { calls::$call(text.as_ptr(), text.len(), room, size, length) })
        }
    };
}

/// All calls on a text, over these functions of the library.
macro_rules! calls_on_texts {
    ($check:ident $derive:ident $diagnose:ident $diagnose_data:ident $export:ident $run:ident $run_by:ident $refusal:ident $verify:ident) => {
        answer! {
            /// One line: what the program has, or why it is refused.
            check $check
        }
        answer! {
            /// The steps that build the rules and the net, or the line of the refusal.
            derive $derive
        }
        answer! {
            /// What is wrong with a text that is refused, in lines for people; nothing where it is accepted.
            diagnose $diagnose
        }
        answer! {
            /// The same as one line of JSON.
            diagnose_data $diagnose_data
        }
        answer! {
            /// The accepted program as one line of JSON, or the line of the refusal.
            export $export
        }

        /// The net that a run of one worker comes to, how many interactions there were and why it stopped, or the line of the refusal. At most 10^12
        /// interactions, and 16 to 1,048,576 cells of each class.
        pub fn run(text: impl AsRef<[u8]>, limit: u64, cells: u32) -> Answer {
            let text = text.as_ref();
            // SAFETY: as above.
            whole(|room, size, length| unsafe { calls::$run(text.as_ptr(), text.len(), limit, cells, room, size, length) })
        }

        /// The net after the interactions of the pairs of these numbers, each in the queue that the one before it left, and of at most `limit` more; and
        /// where the run stands.
        pub fn run_by(text: impl AsRef<[u8]>, choices: &[u32], limit: u64, cells: u32) -> (Answer, State) {
            let (text, state) = (text.as_ref(), Cell::new(State::default()));
            // SAFETY: as above; a slice's pointer isn't null and is aligned.
            let answer = whole(|room, size, length| unsafe {
                calls::$run_by(text.as_ptr(), text.len(), choices.as_ptr(), choices.len(), limit, cells, state.as_ptr(), room, size, length)
            });
            (answer, state.get())
        }

        /// The status of a text, and why it is refused, where it is.
        pub fn refusal(text: impl AsRef<[u8]>) -> (Status, Option<Fault>) {
            let (text, mut fault) = (text.as_ref(), Fault::default());
            // SAFETY: the text and the numbers are lent for the call.
            let status = Status::of(unsafe { calls::$refusal(text.as_ptr(), text.len(), &mut fault) });
            (status, (status == Status::Refused).then_some(fault))
        }

        /// Whether these steps build the rule of that number, or the net, which has the number after the last rule's; `parts` has the steps that agents
        /// are grafted to.
        pub fn verify(text: impl AsRef<[u8]>, number: u32, steps: &[Step], parts: &[u32]) -> Status {
            let text = text.as_ref();
            // SAFETY: all three are lent for the call, and have these sizes; a slice's pointer isn't null and is aligned.
            Status::of(unsafe { calls::$verify(text.as_ptr(), text.len(), number, steps.as_ptr(), steps.len(), parts.as_ptr(), parts.len()) })
        }
    };
}

calls_on_texts!(inet_check inet_derive inet_diagnose inet_diagnose_data inet_export inet_run inet_run_by inet_refusal inet_verify);

/// The same calls for a larger program: a text of up to 64 MiB, a net of up to 1,048,576 agents, and more of all else.
pub mod large {
    use super::{calls, whole, Answer, Fault, State, Status, Step};
    use std::cell::Cell;

    calls_on_texts!(inet_check_large inet_derive_large inet_diagnose_large inet_diagnose_data_large inet_export_large inet_run_large inet_run_by_large inet_refusal_large inet_verify_large);
}

/// The version of the library: a million for its first number, a thousand for the second one, and the third one.
pub fn version() -> u32 {
    // SAFETY: it takes nothing.
    unsafe { calls::inet_version() }
}
