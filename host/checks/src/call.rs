//! The exported calls on a screen record as values, and one function that makes a call through the archive.
//!
//! All that is known of a call stands in one line of the table; the macro makes the rest of it. A new call is a line there, and an arm in
//! `oracle.rs`, where the Rust does it, or in `judge.rs`, where it is said what stands for a call that the Rust lacks.
use crate::layout::{LINE, SNAPSHOT};
use crate::reports::{self, REPORT};
use futonrobin::ffi;
use std::collections::VecDeque;
use std::fmt;

#[derive(Clone, Copy, PartialEq, Debug)]
pub enum Kind {
    New,
    Changing,
    Reading,
    Text,
    Report,
}

/// Makes, from the table below, the type `Call` and what is asked of a call.
macro_rules! calls {
    (
        lent $rec:ident, $out:ident;
        $($call:ident $(($($argument:ident: $type:ty = $example:expr),+))?
            => $function:ident($($lent:expr),+), $kind:ident $(, tag $tag:literal)? $(, room $room:expr)?;)+
    ) => {
        #[derive(Clone, PartialEq)]
        pub enum Call {
            $($call $(($($type),+))?,)+
        }

        /// One call of every name, with the arguments of the table.
        pub fn one_of_each() -> Vec<Call> {
            vec![$(Call::$call $(($($example),+))?),+]
        }

        impl Call {
            pub fn kind(&self) -> Kind {
                match self {
                    $(Call::$call { .. } => Kind::$kind,)+
                }
            }

            /// The shortest output that the call takes; 0 where it has none.
            pub fn room(&self) -> usize {
                match self {
                    $(Call::$call { .. } => 0 $(+ $room)?,)+
                }
            }

            /// The byte that stands for the call in recorded answers.
            pub fn tag(&self) -> Option<u8> {
                match self {
                    $(Call::$call { .. } => None $(.or(Some($tag)))?,)+
                }
            }

            /// The name in the archive.
            fn function(&self) -> &'static str {
                match self {
                    $(Call::$call { .. } => stringify!($function),)+
                }
            }

            /// In their order.
            fn arguments(&self) -> Vec<&dyn Argument> {
                match self {
                    $(Call::$call $(($($argument),+))? => vec![$($($argument as &dyn Argument),+)?],)+
                }
            }

            /// The same call with the arguments of an entry.
            fn with(&self, given: &mut Given) -> Self {
                match self {
                    $(Call::$call { .. } => Call::$call $(($(<$type>::take(given)),+))?,)+
                }
            }

            /// Makes the call. Its own arguments are lent.
            fn make_lent(&self, $rec: &mut [u8], $out: &mut [u8]) -> u32 {
                match self {
                    $(Call::$call $(($($argument),+))? => ffi::$function($($lent),+),)+
                }
            }
        }

        /// No two calls have the same tag: of two equal patterns the second is never reached.
        #[deny(unreachable_patterns)]
        const _: fn(u8) = |tag| match tag {
            $($($tag => (),)?)+
            _ => (),
        };
    };
}

// The table. A line has the call and its arguments, each with one that is in range on every screen; the exported function and what is lent
// to it; the kind; the tag of new and changing calls, by which docs/RECORDING.md and the crate `replay` know them, and which therefore stays: a call
// that the Rust lacks is not recorded and has none; the shortest output, if it has one.
calls! {
    lent rec, out;

    New(width: u32 = 80, sitting: u32 = 7)
                                        => screen_new(rec, *width, *sitting),    New,      tag 0;

    PrintBytes(bytes: Vec<u8> = b"WARD 7\r\nBED 12".to_vec())
                                        => screen_print_bytes(rec, bytes),       Changing, tag 1;
    PrintChecked(bytes: Vec<u8> = b"WARD 7\r\nBED 12\r".to_vec())
                                        => screen_print_checked(rec, bytes),     Changing, tag 25;
    PrintWaiting(bytes: Vec<u8> = b"WARD 7\r\nBED 12\r\nWARD 8\r\n".to_vec(), rows: u32 = 1)
                                        => screen_print_waiting(rec, bytes, *rows), Changing;
    TypeChar(ch: u32 = 81)              => screen_type_char(rec, *ch),           Changing, tag 2;
    TypeLimited(ch: u32 = 81, limit: u32 = 60)
                                        => screen_type_limited(rec, *ch, *limit), Changing;
    Backspace                           => screen_backspace(rec),                Changing, tag 3;
    DeleteChar                          => screen_delete_char(rec),              Changing, tag 4;
    EraseToEnd                          => screen_erase_to_end(rec),             Changing, tag 5;
    EscapeLine                          => screen_escape_line(rec),              Changing, tag 6;
    Tab                                 => screen_tab(rec),                      Changing, tag 7;
    CtrlEnter                           => screen_ctrl_enter(rec),               Changing, tag 8;
    TakeLogicalLine                     => screen_take_logical_line(rec, out),   Changing, tag 9, room LINE;
    BreakLine                           => screen_break_line(rec),               Changing, tag 10;
    MoveLeft                            => screen_move_left(rec),                Changing, tag 11;
    MoveRight                           => screen_move_right(rec),               Changing, tag 12;
    MoveUp                              => screen_move_up(rec),                  Changing, tag 13;
    MoveDown                            => screen_move_down(rec),                Changing, tag 14;
    Home                                => screen_home(rec),                     Changing, tag 15;
    WordLeft                            => screen_word_left(rec),                Changing, tag 16;
    WordRight                           => screen_word_right(rec),               Changing, tag 17;
    EndOfLine                           => screen_end_of_line(rec),              Changing, tag 18;
    Clear                               => screen_clear(rec),                    Changing, tag 19;
    SetWidth(width: u32 = 40)           => screen_set_width(rec, *width),        Changing, tag 20;
    SetCursor(row: u32 = 7, col: u32 = 9)
                                        => screen_set_cursor(rec, *row, *col),   Changing, tag 21;
    SetInsert(on: u32 = 1)              => screen_set_insert(rec, *on),          Changing, tag 22;
    SetAttr(attr: u32 = 0x1e)           => screen_set_attr(rec, *attr),          Changing, tag 23;
    SetKeysOn(on: u32 = 0)              => screen_set_keys_on(rec, *on),         Changing, tag 24;

    Width                               => screen_width(rec),                    Reading;
    Cursor                              => screen_cursor(rec),                   Reading;
    Attr                                => screen_attr(rec),                     Reading;
    EditableRows                        => screen_editable_rows(rec),            Reading;
    Cell(row: u32 = 3, col: u32 = 5)    => screen_cell(rec, *row, *col),         Reading;
    Continues(row: u32 = 2)             => screen_continues(rec, *row),          Reading;

    LogicalText                         => screen_logical_text(rec, out),        Text,     room LINE;
    Snapshot                            => screen_snapshot(rec, out),            Text,     room SNAPSHOT;

    ReportStep                          => report_step(rec, out),                Report,   room REPORT;
    ReportFull                          => report_full(rec, out),                Report,   room REPORT;
}

/// The changing calls without arguments.
pub fn keys() -> Vec<Call> {
    one_of_each().into_iter().filter(|call| call.kind() == Kind::Changing && call.arguments().is_empty()).collect()
}

impl Call {
    pub fn report(kind: reports::Kind) -> Self {
        match kind {
            reports::Kind::Step => Call::ReportStep,
            reports::Kind::Full => Call::ReportFull,
        }
    }

    pub fn has_output(&self) -> bool {
        self.room() > 0
    }

    /// The name in the archive, without `screen_`.
    pub fn name(&self) -> &'static str {
        let function = self.function();
        function.strip_prefix("screen_").unwrap_or(function)
    }

    /// Makes the call through the archive. `out` is lent only by the calls that have an output. The input of a print may not be written either.
    pub fn make(&self, rec: &mut [u8], out: &mut [u8]) -> u32 {
        let lent = self.clone();
        let answer = lent.make_lent(rec, out);
        assert!(lent == *self, "{} wrote its input", self.name());
        answer
    }

    /// What the call is given.
    pub fn given(&self) -> Given {
        let mut given = Given::default();
        self.arguments().iter().for_each(|argument| argument.put(&mut given));
        given
    }

    /// The call that has this tag, with these arguments.
    pub fn with_tag(tag: u8, mut given: Given) -> Option<Self> {
        let call = one_of_each().into_iter().find(|call| call.tag() == Some(tag))?;
        Some(call.with(&mut given))
    }
}

/// The arguments of a call as a recorded entry has them: numbers in their order, and bytes.
#[derive(Default)]
pub struct Given {
    pub numbers: VecDeque<u32>,
    pub bytes: Vec<u8>,
}

/// A number, or bytes.
trait Argument {
    fn shown(&self) -> String;
    fn put(&self, given: &mut Given);
    fn take(given: &mut Given) -> Self
    where
        Self: Sized;
}

impl Argument for u32 {
    fn shown(&self) -> String {
        self.to_string()
    }

    fn put(&self, given: &mut Given) {
        given.numbers.push_back(*self);
    }

    fn take(given: &mut Given) -> Self {
        given.numbers.pop_front().expect("an entry has as many numbers as any call")
    }
}

impl Argument for Vec<u8> {
    fn shown(&self) -> String {
        literal(self)
    }

    fn put(&self, given: &mut Given) {
        given.bytes.extend(self);
    }

    fn take(given: &mut Given) -> Self {
        std::mem::take(&mut given.bytes)
    }
}

impl fmt::Display for Call {
    fn fmt(&self, f: &mut fmt::Formatter) -> fmt::Result {
        let shown: Vec<_> = self.arguments().iter().map(|argument| argument.shown()).collect();
        write!(f, "{}({})", self.name(), shown.join(", "))
    }
}

impl fmt::Debug for Call {
    fn fmt(&self, f: &mut fmt::Formatter) -> fmt::Result {
        fmt::Display::fmt(self, f)
    }
}

/// Bytes as Rust would write them; a long run of one byte as a repetition.
pub fn literal(bytes: &[u8]) -> String {
    match bytes.first() {
        Some(first) if bytes.len() > 12 && bytes.iter().all(|b| b == first) => {
            format!("[b'{}'; {}]", first.escape_ascii(), bytes.len())
        }
        _ => format!("b\"{}\"", bytes.escape_ascii()),
    }
}
