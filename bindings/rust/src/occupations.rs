//! The printed list of platform occupations.
use crate::error::Call;
use crate::raw::{answer, Refusal};
use crate::row_list::Rows;
use crate::{raw, DataType, Error, Schema};
use alloc::boxed::Box;
use alloc::string::String;

/// The columns of a platform occupation that is printed: platform, unit, arrival and departure.
///
/// ```
/// let schema = rook_row::occupation_schema();
/// assert_eq!(schema.as_bytes(), [0x0B, 16, 0, 0x0B, 64, 0, 0x0F, 0x0F]);
/// assert_eq!(schema.column("departure"), Ok(3));
/// ```
pub fn occupation_schema() -> Schema {
    let columns = [
        ("platform", DataType::Varchar(16)),
        ("unit", DataType::Varchar(64)),
        ("arrival", DataType::Timestamp),
        ("departure", DataType::Timestamp),
    ];
    Schema::new(columns).expect("four columns of different names")
}

/// The sheet of platform occupations: a line for each row of a list, which is a [`RowList`](crate::RowList) or its
/// bytes. The rows have the columns of [`occupation_schema`]. Texts stand in double quotes, moments as date and time,
/// rounded down to the second, a null as a hyphen, bars between. The lines are ordered by platform, by bytes, then by
/// arrival, then as the list is; a null is first.
///
/// ```
/// use rook_row::{occupation_schema, print_occupations, Builder, RowList, Timestamp, Value};
///
/// let schema = occupation_schema();
/// let mut builder = Builder::new(&schema);
/// let mut list = RowList::new();
/// let at = |text: &str| text.parse::<Timestamp>().unwrap();
/// for (platform, unit, arrival) in [
///     ("3", "T41", "2026-11-16 06:12:00"),
///     ("10", "IC 587", "2026-11-16 06:07:30"),
///     ("3", "Süd", "2026-11-16 05:58:59.5"),
/// ] {
///     list.push(builder.build(&[platform.into(), unit.into(), at(arrival).into(), Value::Null])?)?;
/// }
/// assert_eq!(
///     print_occupations(&list)?,
///     "\"10\"|\"IC 587\"|2026-11-16 06:07:30|-\n\
///      \"3\"|\"Süd\"|2026-11-16 05:58:59|-\n\
///      \"3\"|\"T41\"|2026-11-16 06:12:00|-\n"
/// );
///
/// list.push(builder.build(&["3".into(), "T\"41".into(), Value::Null, Value::Null])?)?;
/// let refused = print_occupations(&list).unwrap_err();
/// assert_eq!(refused.to_string(), "row 3: column 1 (unit): a double quote cannot be printed (17)");
/// assert_eq!((refused.number(), refused.place()), (17, 1));
/// # Ok::<(), rook_row::Error>(())
/// ```
///
/// Refuses with 16 (bytes that are no row list), then row by row with 3, 5, 6 (the row), 7 and 8 (a column), 17 (a text
/// with a double quote or a byte below 32). [`raw::occupations_print`] prints into lent memory.
pub fn print_occupations(list: impl AsRef<[u8]>) -> Result<String, Error> {
    let list = list.as_ref();
    raw::printed(list).map_err(|refusal| refused(refusal, list))
}

#[cold]
fn refused(refusal: Refusal, list: &[u8]) -> Error {
    if refusal.number == answer::BAD_LIST {
        return Error::new(refusal, Call::RowList(list));
    }
    let schema = occupation_schema();
    // The first row that is refused by itself is the one that the refusal is about.
    let mut rows = Rows::new(list);
    let mut row = 0;
    while let Some(listed) = rows.next_listed() {
        if raw::printed(listed) == Err(refusal) {
            let cause = Error::new(refusal, Call::Print(&schema, &listed[2..]));
            let cause = Box::new(cause);
            return Error::ListedRow { row, cause };
        }
        row += 1;
    }
    Error::new(refusal, Call::Print(&schema, &[]))
}
