//! The exported calls, on slices that end at unreadable pages, compared with the
//! model alone: number, place, what is handed out, every byte of every lent slice,
//! list of counts and handle and the marks beside it. `rounds` makes the inputs, `calls` has a
//! method for each call.

mod calls;
mod handle;
pub mod judge;
mod rounds;
mod slots;

use crate::chars::Shown;
use crate::hex;
use crate::memory::{Part, Side};
use judge::{Judge, Told};
use slots::{Given, Role, Slots};
use std::fmt::Write;

/// The exported calls, each after its function.
macro_rules! calls {
    ($($call:ident $name:ident,)*) => {
        #[derive(Debug, Clone, Copy, PartialEq, Eq)]
        pub enum Call {
            $($call,)*
        }

        impl Call {
            pub const ALL: [Call; [$(stringify!($call)),*].len()] = [$(Call::$call),*];

            pub fn name(self) -> &'static str {
                match self {
                    $(Call::$call => stringify!($name),)*
                }
            }
        }
    };
}

calls! {
    Fresh rook_row_fresh,
    Build rook_row_build,
    Read rook_row_read,
    Set rook_row_set,
    SetNull rook_row_set_null,
    HandleSet rook_row_handle_set,
    HandleSetNull rook_row_handle_set_null,
    Text rook_row_text,
    SameContent rook_row_same_content,
    IsNull rook_row_is_null,
    TextCheck rook_text_check,
    OccupationsPrint rook_occupations_print,
}

/// Answers are counted by their numbers, which are less than this.
pub const NUMBERS: usize = 32;

/// How many calls ran.
#[derive(Default)]
pub struct Counts {
    pub calls: u64,
    /// By call and answer: the number, of the text check 1 or 0.
    pub answers: [[u64; NUMBERS]; Call::ALL.len()],
    /// With a lent slice of 65,535 bytes or more, and of 1,048,576 bytes or more.
    pub large: u64,
    pub largest: u64,
    /// By call and answer, those on a long row, or that make one.
    pub long: [[u64; NUMBERS]; Call::ALL.len()],
    /// Same content of a short and a long row.
    pub mixed: u64,
    /// With a schema or a value list for 256 columns or more.
    pub wide: u64,
    /// With an input that was damaged.
    pub damaged: u64,
    /// What calls showed of Varchars that count characters.
    pub shown: [u64; Shown::ALL.len()],
}

/// What a call is given: slices that it only reads, slices that it may write to,
/// and numbers.
struct Lent<'a, const N: usize, const M: usize> {
    inputs: [Given<'a>; N],
    outputs: [Given<'a>; M],
    numbers: [usize; 2],
}

pub struct Attack {
    judge: &'static Judge,
    slots: Slots,
    /// What the judge leaves of each output.
    wanted: Vec<Vec<u8>>,
    /// The bytes that were lent, without those of handles, and some for each call.
    spent: usize,
    pub counts: Counts,
    pub difference: Option<String>,
    /// Whether a difference tells long inputs whole.
    pub whole: bool,
}

impl Attack {
    /// Slices have this side at an unreadable page. With `blocks` they are blocks of
    /// their own, for valgrind.
    pub fn new(judge: &'static Judge, side: Side, blocks: bool) -> Self {
        Attack {
            judge,
            slots: Slots::new(side, blocks),
            wanted: Vec::new(),
            spent: 0,
            counts: Counts::default(),
            difference: None,
            whole: false,
        }
    }

    /// One call: by the port on what it is lent, and by the judge on copies of the
    /// outputs.
    fn run<const N: usize, const M: usize>(
        &mut self,
        call: Call,
        lent: Lent<N, M>,
        port: impl FnOnce([Part; N], [Part; M]) -> Told,
        judge: impl FnOnce([&mut [u8]; M]) -> Told,
    ) -> Told {
        let Lent {
            inputs, outputs, ..
        } = lent;
        let told = port(self.slots.put(inputs), self.slots.put(outputs));
        let wanted = judge(copies(&mut self.wanted, outputs));
        let holds = |(role, bytes): Given| self.slots.of(role).holds(bytes);
        let left = outputs.iter().zip(&self.wanted);
        let same = inputs.into_iter().all(holds)
            && left
                .map(|((role, _), wanted)| (*role, &wanted[..]))
                .all(holds);
        if told != wanted || !same {
            let difference = self.told_apart(call, &lent, told, wanted);
            self.difference.get_or_insert(difference);
        }
        self.count(call, wanted, inputs.iter().chain(&outputs));
        told
    }

    /// Counts a call on a long row, or that makes one.
    fn long_calls(&mut self, call: Call, is_long: bool, told: Told) {
        let answers = &mut self.counts.long[call as usize];
        if is_long && let Some(count) = answers.get_mut(told.number as usize) {
            *count += 1;
        }
    }

    /// Counts what a call showed.
    fn shown(&mut self, shown: Option<Shown>) {
        if let Some(shown) = shown {
            self.counts.shown[shown as usize] += 1;
        }
    }

    /// Counts a call that answers so.
    fn count<'a>(&mut self, call: Call, told: Told, lent: impl Iterator<Item = &'a Given<'a>>) {
        let mut most = 0;
        self.spent += 64;
        for (role, bytes) in lent {
            most = most.max(bytes.len());
            self.spent += if *role == Role::Handle {
                0
            } else {
                bytes.len()
            };
        }
        self.counts.calls += 1;
        self.counts.large += u64::from(most >= 65_535);
        self.counts.largest += u64::from(most >= 1_048_576);
        let number = match call {
            Call::TextCheck => told.handed[0],
            _ => told.number as usize,
        };
        match self.counts.answers[call as usize].get_mut(number) {
            Some(count) => *count += 1,
            None => {
                let difference = format!("{}, answered {number}, which is no number", call.name());
                self.difference.get_or_insert(difference);
            }
        }
    }

    /// The input, and what the port and the judge make of it.
    fn told_apart<const N: usize, const M: usize>(
        &self,
        call: Call,
        lent: &Lent<N, M>,
        told: Told,
        wanted: Told,
    ) -> String {
        let mut text = format!("{}, numbers {:?}", call.name(), lent.numbers);
        for (role, bytes) in lent.inputs.iter().chain(&lent.outputs) {
            let _ = write!(text, "\n  lent   {role:?}, {}", self.bytes(bytes));
        }
        let _ = write!(text, "\n  port   {told:?}\n  wanted {wanted:?}");
        let inputs = lent.inputs.iter().map(|(role, bytes)| (role, *bytes));
        let left = lent.outputs.iter().zip(&self.wanted);
        let outputs = left.map(|((role, _), wanted)| (role, &wanted[..]));
        for (role, wanted) in inputs.chain(outputs) {
            let slot = self.slots.of(*role);
            if !slot.marked() {
                let _ = write!(text, "\n  marks  of {role:?} changed");
            }
            if slot.bytes() != wanted {
                let (left, wanted) = (self.bytes(slot.bytes()), self.bytes(wanted));
                let _ = write!(text, "\n  left   {role:?}, {left}\n  wanted {wanted}");
            }
        }
        text
    }

    fn bytes(&self, bytes: &[u8]) -> String {
        let shown = if self.whole { bytes.len() } else { 400 };
        let first = &bytes[..bytes.len().min(shown)];
        let more = if first.len() < bytes.len() { ".." } else { "" };
        format!("{} bytes {}{more}", bytes.len(), hex(first))
    }
}

/// Copies of the outputs, for the judge.
fn copies<'a, const M: usize>(
    copies: &'a mut Vec<Vec<u8>>,
    outputs: [Given; M],
) -> [&'a mut [u8]; M] {
    copies.resize(copies.len().max(M), Vec::new());
    let mut copies = copies.iter_mut();
    outputs.map(|(_, bytes)| {
        let copy = copies.next().expect("a copy for each output");
        copy.clear();
        copy.extend_from_slice(bytes);
        &mut copy[..]
    })
}

#[cfg(test)]
mod tests {
    use super::judge::{MODEL, Told};
    use super::slots::Role;
    use super::{Attack, Call, Lent, NUMBERS};
    use crate::memory::{Part, Side};
    use rook_row::raw::sys::CALLS;

    fn answer(number: u32) -> Told {
        Told {
            number,
            place: 0,
            handed: [0, 0],
        }
    }

    const HANDLE: [u8; 48] = [7; 48];

    fn lent<'a>() -> Lent<'a, 1, 2> {
        Lent {
            inputs: [(Role::Schema, &[2, 8])],
            outputs: [(Role::Output, &[1, 2, 3]), (Role::Handle, &HANDLE)],
            numbers: [0, 0],
        }
    }

    /// A call with two outputs, of which the port and the judge change the first
    /// byte; the port also the byte at this place of one of them.
    fn called(at: Option<(usize, isize)>) -> Attack {
        let mut attack = Attack::new(&MODEL, Side::End, false);
        let port = |_: [Part; 1], outputs: [Part; 2]| {
            for output in outputs {
                // SAFETY: here and below, a byte of the output or a mark before it.
                unsafe { *output.pointer ^= 1 };
            }
            if let Some((output, place)) = at {
                unsafe { *outputs[output].pointer.offset(place) ^= 1 };
            }
            answer(0)
        };
        attack.run(Call::Set, lent(), port, |outputs| {
            outputs.into_iter().for_each(|output| output[0] ^= 1);
            answer(0)
        });
        attack
    }

    /// All that the library exports is attacked, but the version, which gets nothing.
    #[test]
    fn every_call_is_made() {
        let declared = CALLS.iter().map(|[name, ..]| *name);
        let wanted: Vec<_> = declared
            .filter(|name| *name != "rook_row_version")
            .collect();
        assert_eq!(Call::ALL.map(Call::name).to_vec(), wanted);
    }

    #[test]
    fn every_byte_of_every_output_is_seen() {
        assert_eq!(called(None).difference, None);
        for (output, length) in [(0, 3), (1, 48)] {
            for place in -64..length {
                let attack = called(Some((output, place)));
                let difference = attack.difference.expect("a difference");
                assert!(difference.starts_with("rook_row_set, "), "{difference}");
            }
        }
    }

    #[test]
    fn numbers_are_counted_or_told() {
        for number in [0, 15, 16, 31, 32, 33, 48, u32::MAX] {
            let mut attack = Attack::new(&MODEL, Side::End, false);
            attack.run(
                Call::Read,
                lent(),
                |_, _| answer(number),
                |_| answer(number),
            );
            let counted = attack.counts.answers[Call::Read as usize];
            match counted.get(number as usize) {
                Some(count) => assert_eq!((*count, attack.difference), (1, None)),
                None => {
                    let told = attack.difference.expect("a difference");
                    assert!(told.starts_with("rook_row_read, answered"), "{told}");
                }
            }
            assert_eq!(
                counted.iter().sum::<u64>(),
                u64::from(number < NUMBERS as u32)
            );
        }
    }

    #[test]
    fn handles_are_not_spent() {
        assert_eq!(called(None).spent, 64 + 2 + 3);
    }
}
