//! The exported calls, each with what it is lent and what the judge says of it.

use super::handle::{self, Handle};
use super::judge::{Told, checked, told};
use super::slots::{Given, Role};
use super::{Attack, Call, Lent};
use crate::chars;
use crate::memory::Part;
use cases::RowSort;
use rook_row::raw::sys;

impl Attack {
    pub(super) fn fresh(&mut self, schema: &[u8], is_long: bool, out: &[u8]) -> Told {
        let judge = self.judge.fresh;
        let lent = Lent {
            inputs: [(Role::Schema, schema)],
            outputs: [(Role::Output, out)],
            numbers: [is_long.into(), 0],
        };
        // SAFETY: here and below, each part is of a slot that stays, and only the
        // outputs, each of a slot of its own, are lent for writing.
        let port = |[s]: [Part; 1], [o]: [Part; 1]| unsafe {
            told!(sys::rook_row_fresh(s.lent(), is_long, o.lent()), length)
        };
        let told = self.run(Call::Fresh, lent, port, |[out]| judge(schema, is_long, out));
        self.long_calls(Call::Fresh, is_long, told);
        told
    }

    pub(super) fn build(
        &mut self,
        schema: &[u8],
        is_long: bool,
        values: &[u8],
        text: &[u8],
        out: &[u8],
        counts: &[u8],
    ) -> Told {
        let judge = self.judge.build;
        let lent = Lent {
            inputs: list_inputs(schema, values, text),
            outputs: [(Role::Output, out), (Role::Counts, counts)],
            numbers: [is_long.into(), 0],
        };
        let port = |[s, v, t]: [Part; 3], [o, c]: [Part; 2]| unsafe {
            let (values, text) = (v.lent(), t.lent());
            let answer = sys::rook_row_build(s.lent(), is_long, values, text, o.lent(), c.lent());
            told!(answer, length)
        };
        let told = self.run(Call::Build, lent, port, |[out, counts]| {
            on_numbers(counts, |counts| {
                judge(schema, is_long, values, text, out, counts)
            })
        });
        self.long_calls(Call::Build, is_long, told);
        self.shown(chars::build(schema, values, text, told.answer()));
        told
    }

    pub(super) fn read(
        &mut self,
        schema: &[u8],
        row: &[u8],
        wanted: &[u16],
        out: &[u8],
        counts: &[u8],
    ) -> Told {
        let judge = self.judge.read;
        let bytes: Vec<u8> = wanted.iter().flat_map(|n| n.to_le_bytes()).collect();
        let lent = Lent {
            inputs: [
                (Role::Schema, schema),
                (Role::Row, row),
                (Role::Wanted, &bytes),
            ],
            outputs: [(Role::Output, out), (Role::Counts, counts)],
            numbers: [0, 0],
        };
        let port = |[s, r, w]: [Part; 3], [o, c]: [Part; 2]| unsafe {
            let answer = sys::rook_row_read(s.lent(), r.lent(), w.lent(), o.lent(), c.lent());
            told!(answer, length)
        };
        let told = self.run(Call::Read, lent, port, |[out, counts]| {
            on_numbers(counts, |counts| judge(schema, row, wanted, out, counts))
        });
        self.long_calls(Call::Read, is_long(row), told);
        let is_wanted = |column| wanted.iter().any(|&n| usize::from(n) == column);
        self.shown(chars::read(schema, row, is_wanted, told.answer()));
        told
    }

    pub(super) fn set(
        &mut self,
        schema: &[u8],
        buffer: &[u8],
        [length, column]: [usize; 2],
        values: &[u8],
        text: &[u8],
    ) -> Told {
        let judge = self.judge.set;
        let lent = Lent {
            inputs: list_inputs(schema, values, text),
            outputs: [(Role::Output, buffer)],
            numbers: [length, column],
        };
        let port = |[s, v, t]: [Part; 3], [b]: [Part; 1]| unsafe {
            let (values, text) = (v.lent(), t.lent());
            let answer = sys::rook_row_set(s.lent(), b.lent(), length, column, values, text);
            told!(answer, length)
        };
        let told = self.run(Call::Set, lent, port, |[buffer]| {
            judge(schema, buffer, length, column, values, text)
        });
        self.shown_edit(schema, buffer, [length, column], Some((values, text)), told)
    }

    pub(super) fn set_null(
        &mut self,
        schema: &[u8],
        buffer: &[u8],
        [length, column]: [usize; 2],
    ) -> Told {
        let judge = self.judge.set_null;
        let lent = Lent {
            inputs: [(Role::Schema, schema)],
            outputs: [(Role::Output, buffer)],
            numbers: [length, column],
        };
        let port = |[s]: [Part; 1], [b]: [Part; 1]| unsafe {
            let answer = sys::rook_row_set_null(s.lent(), b.lent(), length, column);
            told!(answer, length)
        };
        let told = self.run(Call::SetNull, lent, port, |[buffer]| {
            judge(schema, buffer, length, column)
        });
        self.shown_edit(schema, buffer, [length, column], None, told)
    }

    pub(super) fn handle_set(
        &mut self,
        schema: &[u8],
        buffer: &[u8],
        before: &Handle,
        column: usize,
        values: &[u8],
        text: &[u8],
    ) -> Told {
        let judge = self.judge.handle_set;
        let length = handle::length(before);
        let lent = Lent {
            inputs: list_inputs(schema, values, text),
            outputs: [(Role::Output, buffer), (Role::Handle, before)],
            numbers: [length, column],
        };
        let port = |[s, v, t]: [Part; 3], [b, h]: [Part; 2]| unsafe {
            let (values, text) = (v.lent(), t.lent());
            let handle = h.handle();
            let answer = sys::rook_row_handle_set(handle, s.lent(), b.lent(), column, values, text);
            told!(answer, length)
        };
        let told = self.run(Call::HandleSet, lent, port, |[buffer, handle]| {
            let handle = handle.try_into().expect("a handle");
            judge(handle, schema, buffer, column, values, text)
        });
        self.shown_edit(schema, buffer, [length, column], Some((values, text)), told)
    }

    pub(super) fn handle_set_null(
        &mut self,
        schema: &[u8],
        buffer: &[u8],
        before: &Handle,
        column: usize,
    ) -> Told {
        let judge = self.judge.handle_set_null;
        let length = handle::length(before);
        let lent = Lent {
            inputs: [(Role::Schema, schema)],
            outputs: [(Role::Output, buffer), (Role::Handle, before)],
            numbers: [length, column],
        };
        let port = |[s]: [Part; 1], [b, h]: [Part; 2]| unsafe {
            let answer = sys::rook_row_handle_set_null(h.handle(), s.lent(), b.lent(), column);
            told!(answer, length)
        };
        let told = self.run(Call::HandleSetNull, lent, port, |[buffer, handle]| {
            let handle = handle.try_into().expect("a handle");
            judge(handle, schema, buffer, column)
        });
        self.shown_edit(schema, buffer, [length, column], None, told)
    }

    /// Counts what an edit showed.
    fn shown_edit(
        &mut self,
        schema: &[u8],
        buffer: &[u8],
        [length, column]: [usize; 2],
        list: Option<(&[u8], &[u8])>,
        told: Told,
    ) -> Told {
        let row = buffer.get(..length);
        let call = if list.is_some() {
            Call::Set
        } else {
            Call::SetNull
        };
        self.long_calls(call, row.is_some_and(is_long), told);
        self.shown(chars::edit(schema, row, column, list, told.answer()));
        told
    }

    pub(super) fn text(&mut self, schema: &[u8], row: &[u8], column: usize) -> Told {
        let judge = self.judge.text;
        let lent = Lent {
            inputs: [(Role::Schema, schema), (Role::Row, row)],
            outputs: [],
            numbers: [column, 0],
        };
        let port = |[s, r]: [Part; 2], []: [Part; 0]| unsafe {
            let answer = sys::rook_row_text(s.lent(), r.lent(), column);
            told!(answer, start, length)
        };
        let told = self.run(Call::Text, lent, port, |[]| judge(schema, row, column));
        self.long_calls(Call::Text, is_long(row), told);
        let is_wanted = |wanted| wanted == column;
        self.shown(chars::read(schema, row, is_wanted, told.answer()));
        told
    }

    pub(super) fn same_content(&mut self, schema: &[u8], a: &[u8], b: &[u8]) -> Told {
        let judge = self.judge.same_content;
        let lent = Lent {
            inputs: [(Role::Schema, schema), (Role::Row, a), (Role::OtherRow, b)],
            outputs: [],
            numbers: [0, 0],
        };
        let port = |[s, a, b]: [Part; 3], []: [Part; 0]| unsafe {
            let answer = sys::rook_row_same_content(s.lent(), a.lent(), b.lent());
            told!(answer, flag)
        };
        let told = self.run(Call::SameContent, lent, port, |[]| judge(schema, a, b));
        self.long_calls(Call::SameContent, is_long(a) || is_long(b), told);
        self.counts.mixed += u64::from(is_long(a) != is_long(b));
        let shown = |row| chars::read(schema, row, |_| true, told.answer());
        self.shown(shown(a).or_else(|| shown(b)));
        told
    }

    pub(super) fn is_null(&mut self, row: &[u8], column: usize) -> Told {
        let judge = self.judge.is_null;
        let lent = Lent {
            inputs: [(Role::Row, row)],
            outputs: [],
            numbers: [column, 0],
        };
        let port = |[r]: [Part; 1], []: [Part; 0]| unsafe {
            told!(sys::rook_row_is_null(r.lent(), column), flag)
        };
        let told = self.run(Call::IsNull, lent, port, |[]| judge(row, column));
        self.long_calls(Call::IsNull, is_long(row), told);
        told
    }

    pub(super) fn text_check(&mut self, text: &[u8]) -> Told {
        let judge = self.judge.text_check;
        let lent = Lent {
            inputs: [(Role::Text, text)],
            outputs: [],
            numbers: [0, 0],
        };
        let port = |[t]: [Part; 1], []: [Part; 0]| unsafe {
            let answer = sys::rook_text_check(t.lent());
            checked(answer.valid, answer.points)
        };
        self.run(Call::TextCheck, lent, port, |[]| judge(text))
    }

    pub(super) fn occupations_print(&mut self, list: &[u8], out: &[u8]) -> Told {
        let judge = self.judge.occupations_print;
        let lent = Lent {
            inputs: [(Role::RowList, list)],
            outputs: [(Role::Output, out)],
            numbers: [0, 0],
        };
        let port = |[l]: [Part; 1], [o]: [Part; 1]| unsafe {
            told!(sys::rook_occupations_print(l.lent(), o.lent()), length)
        };
        self.run(Call::OccupationsPrint, lent, port, |[out]| judge(list, out))
    }
}

/// Whether a row has the mark of long ones.
fn is_long(row: &[u8]) -> bool {
    RowSort::of_row(row) == RowSort::Long
}

/// A schema, and a value list with its text area.
fn list_inputs<'a>(schema: &'a [u8], values: &'a [u8], text: &'a [u8]) -> [Given<'a>; 3] {
    [
        (Role::Schema, schema),
        (Role::Values, values),
        (Role::Text, text),
    ]
}

/// The judge's call on the numbers that these bytes are, low byte first.
fn on_numbers(bytes: &mut [u8], call: impl FnOnce(&mut [u32]) -> Told) -> Told {
    let (numbers, _) = bytes.as_chunks_mut();
    let mut list: Vec<u32> = numbers.iter().map(|n| u32::from_le_bytes(*n)).collect();
    let told = call(&mut list);
    for (bytes, number) in numbers.iter_mut().zip(list) {
        *bytes = number.to_le_bytes();
    }
    told
}
