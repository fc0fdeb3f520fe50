//! What the crate declares is what include/rook_row.h declares: calls, structs, kinds, numbers of answers and limits.
use rook_row::raw::sys::{CheckAnswer, FlagAnswer, RowAnswer, TextAnswer, CALLS};
use rook_row::raw::{answer, kind, limit, value_kind, Handle, Layout};
use std::mem::{align_of, offset_of, size_of};

const HEADER: &str = include_str!("../../../include/rook_row.h");

/// The header without its comments.
fn code() -> String {
    let mut rest = HEADER;
    let mut code = String::new();
    while let Some((before, comment)) = rest.split_once("/*") {
        code += before;
        rest = comment.split_once("*/").expect("a comment that ends").1;
    }
    code + rest
}

/// The enumerators that are called after `ROOK_` and this, with the rest of their names.
fn enumerators(prefix: &str) -> Vec<(String, usize)> {
    let code = code();
    let enums = code.split("enum {").skip(1);
    let lists = enums.map(|rest| rest.split_once('}').expect("an enum that ends").0);
    lists
        .flat_map(|list| list.split(','))
        .map(|item| item.split_once('=').expect("a name and a number"))
        .filter_map(|(name, number)| {
            let name = name.trim().strip_prefix("ROOK_")?.strip_prefix(prefix)?;
            Some((name.to_string(), number.trim().parse().expect("a number")))
        })
        .collect()
}

/// The numbers of the crate, as the header has them.
fn named<N: Copy + TryInto<usize>>(names: &[(&str, N)]) -> Vec<(String, usize)> {
    let number = |n: N| n.try_into().ok().expect("a small number");
    names
        .iter()
        .map(|&(name, n)| (name.to_string(), number(n)))
        .collect()
}

#[test]
fn kinds_answers_and_limits() {
    assert_eq!(named(value_kind::ALL), enumerators("VALUE_"));
    assert_eq!(named(limit::ALL), enumerators("MAX_"));
    // Kinds and answers have no prefix of their own; the first of them is known.
    let plain: Vec<_> = enumerators("")
        .into_iter()
        .filter(|(name, _)| !name.starts_with("VALUE_") && !name.starts_with("MAX_"))
        .collect();
    let ours = [named(kind::ALL), named(answer::ALL)].concat();
    assert_eq!(ours, plain);
    assert_eq!((kind::ALL.len(), answer::ALL.len()), (16, 18));
}

/// A declaration of the header as `sys` writes it: a pointer and the length after it are a slice.
fn lent(parameters: &str) -> String {
    let mut lent = Vec::new();
    let mut parameters = parameters
        .split(',')
        .map(str::trim)
        .filter(|p| *p != "void");
    while let Some(parameter) = parameters.next() {
        let (c, name) = parameter
            .rsplit_once([' ', '*'])
            .expect("a type and a name");
        let (constant, c) = match c.trim().strip_prefix("const ") {
            Some(c) => (true, c),
            None => (false, c.trim()),
        };
        let item = |c| match c {
            "uint8_t" => "u8",
            "uint16_t" => "u16",
            "uint32_t" => "u32",
            _ => panic!("{parameter}"),
        };
        let slice = parameter.contains('*') && c != "rook_row_handle";
        lent.push(match (slice, constant, c) {
            (true, true, _) => format!("{name}: &[{}]", item(c)),
            (true, false, _) => format!("{name}: &mut [{}]", item(c)),
            (_, _, "rook_row_handle") => format!("{name}: &mut Handle"),
            (_, _, "size_t") => format!("{name}: usize"),
            (_, _, "bool") => format!("{name}: bool"),
            _ => panic!("{parameter}"),
        });
        if slice {
            let length = parameters.next().expect("a length");
            let called = [
                format!("size_t {name}_length"),
                format!("size_t {name}_count"),
            ];
            assert!(called.contains(&length.to_string()), "{length}");
        }
    }
    lent.join(", ")
}

fn without_blanks(text: &str) -> String {
    text.split_whitespace().collect()
}

#[test]
fn calls() {
    let answers = [
        ("rook_row_answer", "RowAnswer"),
        ("rook_flag_answer", "FlagAnswer"),
        ("rook_text_answer", "TextAnswer"),
        ("rook_check_answer", "CheckAnswer"),
        ("uint32_t", "u32"),
    ];
    let code = code();
    let mut declared = Vec::new();
    for statement in code.split(';') {
        let statement = statement.split_whitespace().collect::<Vec<_>>().join(" ");
        // A declaration may stand behind a line of the preprocessor or behind a function that is written out.
        for (c, rust) in answers {
            let found = statement.rsplit_once(&format!("{c} rook_"));
            let Some((name, parameters)) = found.and_then(|(_, rest)| rest.split_once('(')) else {
                continue;
            };
            let parameters = parameters.strip_suffix(')').expect("a declaration");
            declared.push([format!("rook_{name}"), lent(parameters), rust.to_string()]);
        }
    }
    // It is there to be linked against, and `build.rs` looks for it.
    let series = ["rook_row_0_4", "", "u32"].map(String::from);
    let of_series = declared.iter().position(|call| *call == series);
    declared.remove(of_series.expect("the function of the series"));
    let ours: Vec<_> = CALLS.iter().map(|call| call.map(without_blanks)).collect();
    let theirs: Vec<_> = declared
        .iter()
        .map(|call| call.each_ref().map(|part| without_blanks(part)))
        .collect();
    assert_eq!(ours, theirs);
}

/// A field's name, place and size.
type Field = (String, usize, usize);

/// The fields of a struct of the header, as C lays them out, and the struct's size.
fn c_struct(name: &str) -> (Vec<Field>, usize) {
    let code = code();
    let end = code
        .find(&format!("}} {name};"))
        .expect("the struct is there");
    let start = code[..end].rfind("typedef struct {").expect("it begins");
    let body = &code[start + "typedef struct {".len()..end];
    let (mut fields, mut at) = (Vec::new(), 0usize);
    for field in body.split(';').map(str::trim).filter(|f| !f.is_empty()) {
        let (c, name) = field.rsplit_once(' ').expect("a type and a name");
        let size = match c {
            "uint32_t" => 4,
            "size_t" => 8,
            "rook_row_layout" => size_of::<Layout>(),
            _ => panic!("{field}"),
        };
        at = at.next_multiple_of(size.min(8));
        fields.push((name.to_string(), at, size));
        at += size;
    }
    (fields, at.next_multiple_of(8))
}

/// The size of the field that a function picks.
fn size<S, F>(_: fn(&S) -> &F) -> usize {
    size_of::<F>()
}

#[test]
fn structs() {
    macro_rules! same {
        ($type:ident as $name:literal: $($field:ident),*) => {
            let fields = vec![$((
                stringify!($field).to_string(),
                offset_of!($type, $field),
                size(|s: &$type| &s.$field),
            )),*];
            assert_eq!(c_struct($name), (fields, size_of::<$type>()));
            assert_eq!(align_of::<$type>(), 8);
        };
    }
    same!(RowAnswer as "rook_row_answer": number, place, length);
    same!(FlagAnswer as "rook_flag_answer": number, place, flag);
    same!(TextAnswer as "rook_text_answer": number, place, start, length);
    same!(CheckAnswer as "rook_check_answer": valid, points);
    same!(Layout as "rook_row_layout": num_columns, num_varlen_cols, fixed_size, packed, is_long);
    same!(Handle as "rook_row_handle": length, layout);
}
