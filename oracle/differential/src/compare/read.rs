//! Reading chosen columns, against `RowDecoder::decode` after `only`: values,
//! nulls and errors by variant on 01's domain; code points by `chars` of what is
//! stored. The model judges all of it: number, place, length and every lent byte.

use super::rows::{self, Counted, Given, apart, apart_from_rust, chars_sorts, counted};
use super::rows::{counted_in, fitting, handed_counts};
use crate::chars::{self, Shown};
use crate::lent::{After, Room, any_counts, any_output, called_with, numbers, written_with};
use crate::{Compared, hex, port};
use cases::RowSort;
use cases::expected::{self, Refusal};
use cases::generate::kinds::Kinds;
use cases::generate::schema::any_type;
use cases::generate::wanted::{any_wanted, subsets};
use cases::rng::Rng;
use cases::rust;
use cases::schema::write_schema;
use model::RowAnswer;

/// The most bytes of a value list: 256 Numerics.
const LONGEST: usize = 256 * 18;

/// What a read is lent.
struct Lent<'a> {
    schema: &'a [u8],
    row: &'a [u8],
    wanted: &'a [u16],
    output: Vec<u8>,
    counts: Vec<u32>,
}

/// An output, and whether the list of this read has room in it.
fn output_for(rng: &mut Rng, schema: &[u8], row: &[u8], wanted: &[u16]) -> (Room, Vec<u8>) {
    let needed = model::read(schema, row, wanted, &mut [0; LONGEST], &mut [0; 256]).length;
    any_output(rng, needed)
}

/// A list of counts, and whether it has a number for each column of the schema.
fn counts_for(rng: &mut Rng, schema: &[u8], row: &[u8]) -> (Room, Vec<u32>) {
    let types = rows::columns(schema, RowSort::of_row(row));
    let columns = types.map_or(3, |types| types.len());
    any_counts(rng, columns)
}

impl Lent<'_> {
    fn port(&self) -> After<RowAnswer> {
        let wanted: Vec<u8> = self.wanted.iter().flat_map(|n| n.to_le_bytes()).collect();
        let inputs = [self.schema, self.row, &wanted];
        let call = |[schema, row, wanted]: [&mut [u8]; 3], out: &mut [u8], counts: &mut [u32]| {
            port::read(schema, row, numbers(wanted), out, counts)
        };
        called_with(&self.output, &self.counts, inputs, call)
    }

    fn model(&self) -> After<RowAnswer> {
        written_with(&self.output, &self.counts, |out, counts| {
            model::read(self.schema, self.row, self.wanted, out, counts)
        })
    }

    /// The value list of what the Rust reads and the counts of its texts, or the
    /// refusal.
    fn told(&self) -> Option<Result<Counted, Refusal>> {
        rows::by_rust(self.schema, RowSort::of_row(self.row), |columns| {
            let values = expected::read(columns, self.row, self.wanted)?;
            let list = fitting(expected::list(columns, self.row, &values), &self.output)?;
            let points = expected::points(columns, self.row, &values);
            Ok((list, counted_in(&points, &self.counts)?))
        })
    }

    fn input(&self) -> String {
        format!(
            "schema {}, row {}, wanted {:?}, {} bytes of output, {} numbers",
            hex(self.schema),
            hex(self.row),
            self.wanted,
            self.output.len(),
            self.counts.len()
        )
    }

    /// The port's answer, and the difference if there is one.
    fn compare(&self) -> (RowAnswer, Option<String>) {
        let port = self.port();
        let difference = apart("model", &port, &self.model(), || self.input());
        (
            port.answer,
            difference
                .or_else(|| apart_from_rust(&handed_counts(&port), &self.told(), || self.input())),
        )
    }

    fn judge(&self, number: u32) -> &'static str {
        rows::judge_of(self.schema, RowSort::of_row(self.row), number, |types| {
            rust::read(types, self.row, self.wanted)
        })
    }

    fn shown(&self, answer: RowAnswer) -> Option<Shown> {
        let is_wanted = |column| self.wanted.iter().any(|&n| usize::from(n) == column);
        let answer = (answer.number, answer.place);
        chars::read(self.schema, self.row, is_wanted, answer)
    }
}

/// A read of a row of any sort.
pub fn compare(rng: &mut Rng) -> Compared {
    let Given {
        mut sorts,
        schema,
        types,
        row,
    } = rows::any_given(rng, Kinds::All);
    let (wanted_sort, wanted) = any_wanted(rng, types.len());
    let (room, output) = output_for(rng, &schema, &row, &wanted);
    let (numbers, counts) = counts_for(rng, &schema, &row);
    let lent = Lent {
        schema: &schema,
        row: &row,
        wanted: &wanted,
        output,
        counts,
    };
    let (answer, difference) = lent.compare();
    let number = answer.number;
    sorts.extend([
        format!("wanted {wanted_sort:?}"),
        format!("output {room:?}"),
        format!("counts {numbers:?}"),
        format!("answer {number}"),
        lent.judge(number).to_string(),
    ]);
    sorts.extend(chars_sorts(&schema, lent.shown(answer)));
    Compared {
        sorts: counted(sorts),
        difference,
    }
}

/// The reads of every subset of the columns of a row, five columns at most.
pub fn every_subset(rng: &mut Rng) -> Compared {
    let columns = rng.pick(&[0, 1, 2, 2, 3, 3, 4, 4, 5]);
    let of = Kinds::All.row_sort(rng);
    let types = (0..columns).map(|_| any_type(rng, 40)).collect();
    let types = Kinds::All.types(rng, types);
    let (sort, row) = rows::any_row(rng, &types, Kinds::All, of);
    let schema = write_schema(&types);
    let mut sorts = vec![
        (format!("row {sort:?}"), 1),
        (format!("rows of {columns} columns"), 1),
        ("subsets read".into(), 1 << columns),
    ];
    sorts.extend(counted(chars_sorts(&schema, None).collect()));
    sorts.extend(counted(rows::long_sort(&row).into_iter().collect()));
    let mut difference = None;
    for wanted in subsets(columns) {
        let (_, output) = output_for(rng, &schema, &row, &wanted);
        let (_, counts) = any_counts(rng, columns);
        let lent = Lent {
            schema: &schema,
            row: &row,
            wanted: &wanted,
            output,
            counts,
        };
        let (answer, apart) = lent.compare();
        sorts.extend(
            lent.shown(answer)
                .map(|shown| (shown.name().to_string(), 1)),
        );
        difference = difference.or(apart);
    }
    Compared { sorts, difference }
}
