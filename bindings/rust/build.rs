//! Finds and links librook_row.a: in the folder that ROOK_ROW_LIB_DIR names, else in target/staticlib or lib of the
//! folder that this crate stands in (the repository, or what `make dist` packs), else where pkg-config says. One of
//! another series than the crate's is refused.
use std::path::{Path, PathBuf};
use std::process::{exit, Command};
use std::{env, fs, str};

const ARCHIVE: &str = "librook_row.a";

fn main() {
    println!("cargo:rerun-if-changed=build.rs");
    for variable in ["ROOK_ROW_LIB_DIR", "PKG_CONFIG_PATH", "PKG_CONFIG"] {
        println!("cargo:rerun-if-env-changed={variable}");
    }
    let folder = found().unwrap_or_else(|why| {
        eprintln!("{why}");
        exit(1)
    });
    println!("cargo:rerun-if-changed={}", folder.join(ARCHIVE).display());
    println!("cargo:rustc-link-search=native={}", folder.display());
    println!("cargo:rustc-link-lib=static=rook_row");
}

/// The archive's folder.
fn found() -> Result<PathBuf, String> {
    let folder = match env::var_os("ROOK_ROW_LIB_DIR").map(PathBuf::from) {
        Some(folder) if holds_archive(&folder) => folder,
        Some(folder) => {
            let folder = folder.display();
            return Err(format!("ROOK_ROW_LIB_DIR: there is no {ARCHIVE} in {folder}"));
        }
        None => beside().or_else(installed).ok_or(format!(
            "there is no {ARCHIVE}: let ROOK_ROW_LIB_DIR name its folder, or PKG_CONFIG_PATH that of rook_row.pc; or \
             run `make demo` in the repository that this crate is of"
        ))?,
    };
    of_our_series(&folder.join(ARCHIVE))?;
    Ok(folder)
}

fn holds_archive(folder: &Path) -> bool {
    folder.join(ARCHIVE).is_file()
}

fn beside() -> Option<PathBuf> {
    let around = Path::new(env!("CARGO_MANIFEST_DIR")).join("../..");
    ["target/staticlib", "lib"]
        .map(|folder| around.join(folder))
        .into_iter()
        .find(|folder| holds_archive(folder))
}

fn installed() -> Option<PathBuf> {
    let program = env::var_os("PKG_CONFIG").unwrap_or("pkg-config".into());
    let answer = Command::new(program)
        .args(["--variable=libdir", "rook_row"])
        .output()
        .ok()?;
    let folder = PathBuf::from(str::from_utf8(&answer.stdout).ok()?.trim());
    (answer.status.success() && holds_archive(&folder)).then_some(folder)
}

/// Refuses an archive of another series. Each has a function that is called after its own, as `rook_row_0_4`.
fn of_our_series(archive: &Path) -> Result<(), String> {
    let bytes = fs::read(archive).map_err(|why| format!("{}: {why}", archive.display()))?;
    let ours = concat!(
        env!("CARGO_PKG_VERSION_MAJOR"),
        "_",
        env!("CARGO_PKG_VERSION_MINOR")
    );
    let theirs = functions(&bytes)
        .unwrap_or_default()
        .into_iter()
        .filter_map(|name| name.strip_prefix("rook_row_"))
        .find(|series| series.starts_with(|first: char| first.is_ascii_digit()));
    let (archive, version) = (archive.display(), env!("CARGO_PKG_VERSION"));
    match theirs {
        Some(series) if series == ours => Ok(()),
        Some(series) => Err(format!(
            "{archive} is version {}, which does not go with this crate, version {version}",
            series.replace('_', ".")
        )),
        None => Err(format!(
            "{archive} does not go with this crate, version {version}: it has no function rook_row_{ours}"
        )),
    }
}

/// What an archive exports, by its index, its first member: behind the archive's mark and a header of 60 bytes, which
/// ends in the member's size, a count and an offset for each name, of four bytes each, then the names, each with a 0.
fn functions(archive: &[u8]) -> Option<Vec<&str>> {
    let (header, rest) = archive
        .strip_prefix(b"!<arch>\n")?
        .split_first_chunk::<60>()?;
    let size = str::from_utf8(&header[48..58]).ok()?.trim_end();
    let (count, rest) = rest.get(..size.parse().ok()?)?.split_first_chunk()?;
    let names = rest.get(4 * u32::from_be_bytes(*count) as usize..)?;
    str::from_utf8(names)
        .ok()
        .map(|names| names.split('\0').collect())
}
