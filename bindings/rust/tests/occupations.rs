//! Row lists, and the printed list of platform occupations.
use rook_row::raw::{self, Refusal};
use rook_row::{
    occupation_schema, print_occupations, Error, RowBuf, RowList, RowListFault, RowRef, Timestamp,
    Value,
};

/// Platform 3, unit T41, arrival 0, no departure.
const T41: [u8; 29] = [
    4, 0, 2, 0x80, 8, 25, 0, 26, 0, 0, 0, 0, 0, 0, 0, 0, 0, 0, 0, 0, 0, 0, 0, 0, 0, b'3', b'T',
    b'4', b'1',
];
const LINE: &str = "\"3\"|\"T41\"|1970-01-01 00:00:00|-\n";

fn row(values: [Value<'_>; 4]) -> RowBuf {
    RowBuf::build(&occupation_schema(), &values).unwrap()
}

fn nulls() -> RowBuf {
    RowBuf::fresh(&occupation_schema()).unwrap()
}

fn list(rows: &[RowBuf]) -> RowList {
    let mut list = RowList::new();
    for row in rows {
        list.push(row).unwrap();
    }
    list
}

fn moment(micros: i64) -> Value<'static> {
    Timestamp::from_micros(micros).into()
}

fn told<T>(result: Result<T, Error>, number: u32, place: usize, message: &str) {
    let error = result.err().expect("a refusal");
    assert_eq!((error.number(), error.place()), (number, place));
    assert_eq!(error.to_string(), format!("{message} ({number})"));
}

#[test]
fn the_example() {
    let t41 = row(["3".into(), "T41".into(), moment(0), Value::Null]);
    assert_eq!(t41.as_bytes(), T41);
    let list = list(&[t41]);
    assert_eq!(list.as_bytes(), [&[29, 0][..], &T41].concat());
    assert_eq!(print_occupations(&list).unwrap(), LINE);
    assert_eq!(print_occupations(list.as_bytes()).unwrap(), LINE);
    assert_eq!(print_occupations(RowList::new()).unwrap(), "");
}

/// The request's four rows, and the order of their lines.
#[test]
fn the_order() {
    let rows = [
        row(["3".into(), "T41".into(), moment(0), Value::Null]),
        row(["3".into(), Value::Null, moment(-1), Timestamp::MAX.into()]),
        row([Value::Null, "".into(), Value::Null, Value::Null]),
        row(["10".into(), Value::Null, moment(1), Value::Null]),
    ];
    assert_eq!(
        print_occupations(list(&rows)).unwrap(),
        "-|\"\"|-|-\n\
         \"10\"|-|1970-01-01 00:00:00|-\n\
         \"3\"|-|1969-12-31 23:59:59|9999-12-31 23:59:59\n\
         \"3\"|\"T41\"|1970-01-01 00:00:00|-\n"
    );
}

#[test]
fn raw_calls() {
    let bytes = [&[29, 0][..], &T41].concat();
    let mut out = [0xEE; 40];
    let refused = |number| {
        let place = 0;
        Err(Refusal { number, place })
    };
    assert_eq!(raw::occupations_print(&bytes, &mut out[..31]), refused(14));
    assert_eq!(raw::occupations_print(&bytes[..30], &mut out), refused(16));
    assert_eq!(out, [0xEE; 40]);
    assert_eq!(raw::occupations_print(&bytes, &mut out[..32]), Ok(32));
    assert_eq!((&out[..32], &out[32..]), (LINE.as_bytes(), &[0xEE; 8][..]));
}

/// The longest lines of the most rows are 64,512 bytes, but no list has them: 306 rows with the longest texts fit.
#[test]
fn the_longest() {
    let (platform, unit) = ("p".repeat(16), "u".repeat(64));
    let long = row([
        platform.into(),
        unit.into(),
        Timestamp::MIN.into(),
        Timestamp::MAX.into(),
    ]);
    let mut list = RowList::new();
    while list.push(&long).is_ok() {}
    assert_eq!(list.len(), 306);
    let lines = print_occupations(&list).unwrap();
    assert_eq!(lines.len(), 306 * 126);
    assert_eq!(lines.lines().count(), 306);
}

#[test]
fn lists_are_made_and_taken_apart() {
    let mut list = RowList::new();
    assert!(list.is_empty());
    for bytes in [&[][..], &[7], &T41] {
        list.push(bytes).unwrap();
    }
    assert_eq!(list.as_bytes()[..5], [0, 0, 1, 0, 7]);
    assert_eq!(list.len(), 3);
    let rows: Vec<RowRef<'_>> = list.iter().collect();
    assert_eq!(
        rows,
        [RowRef::new(&[]), RowRef::new(&[7]), RowRef::new(&T41)]
    );
    assert_eq!((&list).into_iter().count(), 3);
    let same = RowList::from_bytes(list.as_bytes()).unwrap();
    assert_eq!(same, list);
    assert_eq!(same.into_bytes(), list.as_bytes());
    assert!(format!("{list:?}").starts_with("[RowRef { bytes: [] }, "));
    list.clear();
    assert_eq!(list, RowList::default());
}

#[test]
fn limits_of_a_list() {
    let mut list = RowList::new();
    for _ in 0..512 {
        list.push(nulls()).unwrap();
    }
    let full = list.clone();
    let message = "row list: more than 512 rows";
    told(list.push([]), 16, 0, message);
    assert_eq!(list, full);
    assert_eq!(print_occupations(&list).unwrap(), "-|-|-|-\n".repeat(512));
    let more = [list.as_bytes(), &[0, 0]].concat();
    told(RowList::from_bytes(&more[..]), 16, 0, message);
    told(print_occupations(&more), 16, 0, message);
    let lone = [list.as_bytes(), &[0]].concat();
    told(print_occupations(&lone), 16, 0, message);

    let mut list = RowList::new();
    list.push(vec![0; 32_765]).unwrap();
    let message = "row list: 32769 bytes, but 32768 are the most";
    told(list.push([]), 16, 0, message);
    assert_eq!(list.as_bytes().len(), 32_767);
    let long = [&[0xFF, 0x7F][..], &[0; 32_767]].concat();
    told(RowList::from_bytes(&long[..]), 16, 0, message);
    told(print_occupations(&long), 16, 0, message);
    let mut list = RowList::new();
    let message = "row list: 70002 bytes, but 32768 are the most";
    told(list.push(vec![0; 70_000]), 16, 0, message);
    list.push(vec![0; 32_766]).unwrap();
    assert_eq!(RowList::from_bytes(list.as_bytes()), Ok(list));
}

#[test]
fn lists_that_are_cut_off() {
    let whole = list(&[nulls(), nulls()]).into_bytes();
    for length in 0..whole.len() {
        let cut = &whole[..length];
        let wanted = match length {
            0 | 27 => None,
            _ => Some(RowListFault::CutOff { row: length / 27 }),
        };
        let wanted = wanted.map(|fault| Error::BadRowList { fault });
        assert_eq!(RowList::from_bytes(cut).err(), wanted);
        assert_eq!(print_occupations(cut).err(), wanted);
    }
    told(
        print_occupations(&whole[..53]),
        16,
        0,
        "row list: row 1 is cut off",
    );
}

/// The refusal of the first row that is refused, and which row it is.
#[test]
fn rows_that_are_refused() {
    let refused = |bytes: &[u8], number, place, message: &str| {
        let mut list = list(&[nulls(), nulls()]);
        list.push(bytes).unwrap();
        list.push([0]).unwrap();
        told(
            print_occupations(&list),
            number,
            place,
            &format!("row 2: {message}"),
        );
    };
    let at = |place: usize, byte: u8| {
        let mut row = T41;
        row[place] = byte;
        row
    };
    let short = "the row has 3 bytes, fewer than its header says or than every row of the schema";
    refused(&T41[..3], 3, 0, short);
    refused(&at(0, 5), 5, 0, "the row has 5 columns, the schema 4");
    refused(&at(2, 3), 6, 0, "the row has 3 Varchars, the schema 2");
    refused(
        &at(5, 27),
        7,
        0,
        "column 0 (platform): its text leaves the row",
    );
    refused(
        &at(26, 0xFF),
        8,
        1,
        "column 1 (unit): its bytes are no VARCHAR(64)",
    );
    refused(
        &at(16, 0x7F),
        8,
        2,
        "column 2 (arrival): its bytes are no TIMESTAMP",
    );
    let quote = "column 0 (platform): a double quote cannot be printed";
    refused(&at(25, b'"'), 17, 0, quote);
    let tab = "column 1 (unit): the byte 09 cannot be printed";
    refused(&at(27, b'\t'), 17, 1, tab);
}

#[test]
fn the_row_is_named() {
    let quoted = row(["3".into(), "a\"".into(), Value::Null, Value::Null]);
    let error = print_occupations(list(&[nulls(), quoted])).unwrap_err();
    let Error::ListedRow { row: 1, cause } = error else {
        panic!("{error:?}");
    };
    let Error::Unprintable { column, byte: b'"' } = *cause else {
        panic!("{cause:?}");
    };
    assert_eq!((column.number(), column.name()), (1, Some("unit")));
}
