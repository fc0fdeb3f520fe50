//! Writes the model with every fault of the list `faults` in it. A fault is five
//! lines: what is wrong; the file; a text that stands in it once; the expression
//! whose first occurrence behind that text is wrong; what it is instead. Several faults
//! may be about one expression.
use std::path::{Path, PathBuf};
use std::{env, fs};

const MODULES: [&str; 13] = [
    "build", "calendar", "edit", "handle", "layout", "print", "read", "row_list", "schema", "sort",
    "stored", "text", "value",
];

struct Fault<'a> {
    number: usize,
    name: &'a str,
    file: &'a str,
    behind: &'a str,
    old: &'a str,
    new: &'a str,
}

fn faults(list: &str) -> Vec<Fault<'_>> {
    let blocks = list.split("\n\n").map(str::trim).filter(|b| !b.is_empty());
    blocks
        .enumerate()
        .map(|(number, block)| {
            let lines: Vec<&str> = block.lines().collect();
            let [name, file, behind, old, new] = lines[..] else {
                panic!("not a fault: {block}");
            };
            let field = |line: &'_ str, name: &str| -> usize {
                assert!(line.starts_with(name), "no {name} in: {block}");
                name.len()
            };
            Fault {
                number: number + 1,
                name,
                file: &file[field(file, "file: ")..],
                behind: &behind[field(behind, "behind: ")..],
                old: &old[field(old, "old: ")..],
                new: &new[field(new, "new: ")..],
            }
        })
        .collect()
}

/// Where the fault's expression stands in its file.
fn place(fault: &Fault, text: &str) -> usize {
    let name = fault.name;
    let count = text.matches(fault.behind).count();
    assert_eq!(
        count, 1,
        "{name}: `{}` is there {count} times",
        fault.behind
    );
    let behind = text.find(fault.behind).expect("found") + fault.behind.len();
    let found = text[behind..].find(fault.old);
    behind + found.unwrap_or_else(|| panic!("{name}: no `{}`", fault.old))
}

/// The file's text with its faults, the last one first so that places stay.
fn planted(file: &str, text: &str, faults: &[Fault]) -> String {
    let own = faults.iter().filter(|fault| fault.file == file);
    let mut places: Vec<_> = own.map(|fault| (place(fault, text), fault)).collect();
    places.sort_by_key(|(place, _)| *place);
    let mut text = text.to_string();
    let mut before = text.len();
    for faults in places.chunk_by(|a, b| a.0 == b.0).rev() {
        let (place, Fault { name, old, .. }) = faults[0];
        let end = place + old.len();
        assert!(end <= before, "{name} overlaps another");
        let mut switch = String::new();
        for (_, fault) in faults {
            assert_eq!(fault.old, *old, "{}: another expression", fault.name);
            switch += &format!("if crate::on({}) {{ {} }} else ", fault.number, fault.new);
        }
        text.replace_range(place..end, &format!("({switch}{{ {old} }})"));
        before = place;
    }
    text
}

/// The text without what may only begin a file.
fn inner(text: &str) -> String {
    let is_inner = |line: &&str| !line.starts_with("//!") && !line.starts_with("#![");
    let lines: Vec<&str> = text.lines().filter(is_inner).collect();
    lines.join("\n")
}

fn main() {
    let here = PathBuf::from(env::var_os("CARGO_MANIFEST_DIR").expect("cargo runs this"));
    let read = |path: &Path| {
        println!("cargo:rerun-if-changed={}", path.display());
        fs::read_to_string(path).unwrap_or_else(|error| panic!("{}: {error}", path.display()))
    };
    let list = read(&here.join("faults"));
    let faults = faults(&list);
    let model = here.join("../model/src");
    let mut out = String::new();
    let mut count = 0;
    for module in MODULES {
        let file = format!("{module}.rs");
        let text = planted(&file, &read(&model.join(&file)), &faults);
        out += &format!("pub mod {module} {{\n{}\n}}\n", inner(&text));
        count += faults.iter().filter(|fault| fault.file == file).count();
    }
    let root = planted("lib.rs", &read(&model.join("lib.rs")), &faults);
    let is_module = |line: &&str| line.starts_with("pub mod ");
    assert_eq!(root.lines().filter(is_module).count(), MODULES.len());
    count += faults.iter().filter(|fault| fault.file == "lib.rs").count();
    assert_eq!(count, faults.len(), "a fault names another file");
    let lines: Vec<&str> = root.lines().filter(|line| !is_module(line)).collect();
    out += &inner(&lines.join("\n"));
    let names: Vec<&str> = faults.iter().map(|fault| fault.name).collect();
    out += &format!("\npub const FAULTS: [&str; {}] = {names:?};\n", names.len());
    let folder = PathBuf::from(env::var_os("OUT_DIR").expect("cargo runs this"));
    fs::write(folder.join("model.rs"), out).expect("a file is written");
}
