//! The program `occupations` as `tools/archive` leaves it: what it writes for an input is what the model says, and its
//! status is 0. OCCUPATIONS names another binary.
use std::io::Write;
use std::path::PathBuf;
use std::process::{Child, Command, Stdio};
use std::time::Duration;
use std::{env, fs, thread};

use native::Random;
use rook_row::{occupation_schema, print_occupations, RowBuf, Sort, Timestamp, Value};

fn program() -> PathBuf {
    let built = PathBuf::from(env!("CARGO_MANIFEST_DIR")).join("../target/bin/occupations");
    let path = env::var_os("OCCUPATIONS").map_or(built, PathBuf::from);
    assert!(
        path.is_file(),
        "there is no {}: `tools/archive occupations` makes it",
        path.display()
    );
    path
}

fn started() -> Child {
    Command::new(program())
        .stdin(Stdio::piped())
        .stdout(Stdio::piped())
        .stderr(Stdio::piped())
        .spawn()
        .expect("the program runs")
}

/// What the program writes for this input, given in parts with a pause before each but the first. The program may end
/// its reading early, so that a part is not taken.
fn written(parts: &[&[u8]]) -> Vec<u8> {
    let mut child = started();
    let mut input = child.stdin.take().expect("a pipe");
    let parts: Vec<Vec<u8>> = parts.iter().map(|part| part.to_vec()).collect();
    let writer = thread::spawn(move || {
        for (number, part) in parts.iter().enumerate() {
            if number > 0 {
                thread::sleep(Duration::from_millis(2));
            }
            if input.write_all(part).and_then(|()| input.flush()).is_err() {
                return;
            }
        }
    });
    let output = child.wait_with_output().expect("the program ends");
    writer.join().expect("the writer ends");
    assert!(output.status.success(), "{}", output.status);
    assert_eq!(output.stderr, b"");
    output.stdout
}

/// Holds the program to the model on an input.
fn compare(input: &[u8]) -> String {
    let text = written(&[input]);
    assert!(text == model::report(input), "{input:02X?}");
    String::from_utf8(text).expect("text")
}

fn row(
    platform: Option<&str>,
    unit: Option<&str>,
    arrival: Option<i64>,
    departure: Option<i64>,
) -> Vec<u8> {
    let text = |text: Option<&str>| text.map_or(Value::Null, |text| Value::from(text.to_string()));
    let moment = |micros: Option<i64>| {
        micros.map_or(Value::Null, |micros| Timestamp::from_micros(micros).into())
    };
    let values = [
        text(platform),
        text(unit),
        moment(arrival),
        moment(departure),
    ];
    RowBuf::build(&occupation_schema(), &values)
        .expect("a row")
        .into_bytes()
}

fn list(rows: &[Vec<u8>]) -> Vec<u8> {
    let listed = rows
        .iter()
        .flat_map(|row| [&(row.len() as u16).to_le_bytes()[..], row].concat());
    listed.collect()
}

fn t41() -> Vec<u8> {
    row(Some("3"), Some("T41"), Some(0), None)
}

const LINE: &str = "\"3\"|\"T41\"|1970-01-01 00:00:00|-\n";

/// A long row is printed like the short one of the same values.
#[test]
fn long_rows() {
    let schema = occupation_schema();
    let short = RowBuf::from_bytes(t41());
    let values = short.read(&schema).expect("a row");
    let long = RowBuf::build(schema.with_sort(Sort::Long), &values).expect("a row");
    assert_eq!(long.as_bytes().len(), short.as_bytes().len() + 4);
    let both = [long.into_bytes(), t41()];
    let text = written(&[&list(&both)]);
    assert_eq!(String::from_utf8(text).expect("text"), LINE.repeat(2));
    // Without the mark the first four bytes of its offsets, 1D 00 00 00, are two: a platform from byte 29, no unit.
    let [mut unmarked, _] = both;
    unmarked[3] = 0x80;
    let line = "\"3T41\"|-|1970-01-01 00:00:00|-\n";
    assert_eq!(written(&[&list(&[unmarked])]), line.as_bytes());
}

#[test]
fn small_lists() {
    assert_eq!(compare(&[]), "");
    let one = list(&[t41()]);
    assert_eq!(compare(&one), LINE);
    let four = list(&[
        t41(),
        row(Some("3"), None, Some(-1), Some(253_402_300_799_999_999)),
        row(None, Some(""), None, None),
        row(Some("10"), None, Some(1), None),
    ]);
    let lines = "-|\"\"|-|-\n\"10\"|-|1970-01-01 00:00:00|-\n\"3\"|-|1969-12-31 23:59:59|9999-12-31 23:59:59\n";
    assert_eq!(compare(&four), [lines, LINE].concat());
    let umlaut = row(
        Some("Süd"),
        Some("🚆 |\u{7F}"),
        Some(-62_135_596_800_000_000),
        None,
    );
    assert_eq!(
        compare(&list(&[umlaut])),
        "\"Süd\"|\"🚆 |\u{7F}\"|0001-01-01 00:00:00|-\n"
    );
}

/// The program prints what the call does, or the refusal, and of the rows before it nothing.
#[test]
fn refusals() {
    let one = list(&[t41()]);
    assert_eq!(compare(&one[..30]), "16 0\n");
    assert_eq!(compare(&[0]), "16 0\n");
    assert_eq!(compare(&[&one[..], &[7]].concat()), "16 0\n");
    let with = |bad: Vec<u8>| compare(&list(&[t41(), bad, t41()]));
    for length in 0..4 {
        assert_eq!(with(t41()[..length].to_vec()), "3 0\n");
    }
    let at = |place: usize, byte: u8| {
        let mut row = t41();
        row[place] = byte;
        row
    };
    assert_eq!(with(at(0, 3)), "5 0\n");
    assert_eq!(with(at(2, 1)), "6 0\n");
    assert_eq!(with(t41()[..24].to_vec()), "3 0\n");
    assert_eq!(with(at(5, 27)), "7 0\n");
    assert_eq!(with(at(26, 0xFF)), "8 1\n");
    assert_eq!(with(at(16, 0x7F)), "8 2\n");
    assert_eq!(with(at(25, b'"')), "17 0\n");
    assert_eq!(with(at(28, 0x1F)), "17 1\n");
    assert_eq!(with(row(None, Some("A\""), None, None)), "17 1\n");
}

#[test]
fn limits() {
    let nulls = row(None, None, None, None);
    let mut rows = vec![nulls; 512];
    assert_eq!(compare(&list(&rows)), "-|-|-|-\n".repeat(512));
    rows.push(t41());
    assert_eq!(compare(&list(&rows)), "16 0\n");

    // 306 of the longest rows, and one of 24 bytes or of 25.
    let (platform, unit) = ("p".repeat(16), "u".repeat(64));
    let long = row(Some(&platform), Some(&unit), Some(0), Some(0));
    let mut rows = vec![long; 306];
    assert_eq!(compare(&list(&rows)).len(), 306 * 126);
    rows.push(vec![4; 24]);
    assert_eq!(list(&rows).len(), 32_768);
    assert_eq!(compare(&list(&rows)), "5 0\n");
    rows[306].push(4);
    assert_eq!(compare(&list(&rows)), "16 0\n");
    // 512 rows of 62 bytes: both limits at once, and half of the longest output.
    let unit = "u".repeat(37);
    let rows = vec![row(None, Some(&unit), Some(0), Some(0)); 512];
    assert_eq!(list(&rows).len(), 32_768);
    assert_eq!(compare(&list(&rows)).len(), 512 * (1 + 39 + 19 + 19 + 4));

    for length in [
        32_767, 32_768, 32_769, 40_000, 65_535, 65_536, 65_537, 100_000,
    ] {
        compare(&vec![0; length]);
        compare(&vec![0xFF; length]);
    }
    assert_eq!(compare(&vec![0; 1_000_000]), "16 0\n");
}

/// The platforms, arrivals and units of a row at random, with many of each alike.
fn any_row(random: &mut Random) -> Vec<u8> {
    let platform = [None, Some(""), Some("1"), Some("10"), Some("1a"), Some("é")][random.below(6)];
    let unit = format!("U {}", random.below(1000));
    let second = [0, 1_000_000_000_000_000, -1_000_000_000_000_000][random.below(3)];
    let arrival = (random.below(8) > 0).then(|| second + random.below(3) as i64 - 1);
    let departure = (random.below(2) > 0).then(|| (random.next_number() >> 8) as i64);
    row(platform, Some(&unit), arrival, departure)
}

#[test]
fn lists_at_random() {
    let mut random = Random(0x9E37_79B9_7F4A_7C15);
    for count in [1, 2, 3, 5, 8, 13, 40, 100, 300, 512] {
        let rows: Vec<_> = (0..count).map(|_| any_row(&mut random)).collect();
        let mut bytes = list(&rows);
        let lines = compare(&bytes);
        assert_eq!(Ok(lines), print_occupations(&bytes));
        // A byte changed anywhere.
        let at = random.below(bytes.len());
        bytes[at] ^= 1 << random.below(8);
        compare(&bytes);
    }
}

#[test]
fn a_pipe_that_pauses() {
    let bytes = list(&[t41(), row(Some("10"), None, Some(0), None)]);
    let parts: Vec<&[u8]> = bytes.chunks(1).collect();
    assert!(written(&parts) == model::report(&bytes));
    let many = list(&vec![t41(); 512]);
    let parts: Vec<&[u8]> = many.chunks(500).collect();
    assert!(written(&parts) == LINE.repeat(512).into_bytes());
    // Past the limit too, whether the program takes the last parts or not.
    let long = vec![0; 40_000];
    let parts: Vec<&[u8]> = long.chunks(8000).collect();
    assert_eq!(written(&parts), b"16 0\n");
}

/// The list is a file, which can be longer than what the program takes of it.
#[test]
fn a_file() {
    let path = env::temp_dir().join(format!("occupations-{}", std::process::id()));
    for bytes in [list(&[t41()]), vec![0; 100_000]] {
        fs::write(&path, &bytes).expect("a file");
        let file = fs::File::open(&path).expect("a file");
        let output = Command::new(program())
            .stdin(file)
            .output()
            .expect("the program runs");
        assert!(output.status.success(), "{}", output.status);
        assert!(output.stdout == model::report(&bytes));
    }
    fs::remove_file(&path).expect("a file");
}

/// The program with its standard files as the shell's words say.
fn redirected(words: &str) -> Command {
    let mut command = Command::new("sh");
    command.arg("-c").arg(format!("exec \"$0\" {words}"));
    command.arg(program());
    command
}

/// No input, none that can be read, or none at all: what could be read is the list.
#[test]
fn no_input() {
    for words in ["</dev/null", "</", "<&-"] {
        let output = redirected(words).output().expect("the program runs");
        assert!(output.status.success(), "{words}: {}", output.status);
        assert_eq!(output.stdout, b"", "{words}");
    }
}

/// What it writes goes nowhere: its status is 0 all the same.
#[test]
fn no_output() {
    for words in [">/dev/full", ">&-"] {
        for bytes in [list(&vec![t41(); 512]), vec![0]] {
            let mut child = redirected(words)
                .stdin(Stdio::piped())
                .spawn()
                .expect("the program runs");
            let mut input = child.stdin.take().expect("a pipe");
            input.write_all(&bytes).expect("the list is read");
            drop(input);
            let status = child.wait().expect("the program ends");
            assert!(status.success(), "{words}: {status}");
        }
    }
}

/// Nobody reads what it writes: it ends all the same, by itself or by the signal that a pipe sends.
#[test]
fn an_output_that_nobody_reads() {
    let mut child = started();
    drop(child.stdout.take());
    let mut input = child.stdin.take().expect("a pipe");
    input
        .write_all(&list(&vec![t41(); 512]))
        .expect("the list is read");
    drop(input);
    let output = child.wait_with_output().expect("the program ends");
    assert_eq!(output.stderr, b"");
}
