//! Writes the file of recorded answers, which its one argument names; with
//! `--check` before it, compares instead and changes nothing. No path begins with a
//! hyphen, so that a word which is no option makes no file.

use differential::recorded;
use std::process::ExitCode;

const USAGE: &str = "record [--check] PATH";

/// What is done with the file of a path.
#[derive(Debug, PartialEq, Eq)]
enum Task<'a> {
    Write(&'a str),
    Compare(&'a str),
}

/// What the words ask for.
fn task<'a>(words: &[&'a str]) -> Option<Task<'a>> {
    let task = match *words {
        [path] => Task::Write(path),
        ["--check", path] => Task::Compare(path),
        _ => return None,
    };
    let (Task::Write(path) | Task::Compare(path)) = task;
    (!path.starts_with('-')).then_some(task)
}

fn run(task: Task<'_>) -> Result<(), String> {
    let file = recorded::file();
    match task {
        Task::Write(path) => std::fs::write(path, file).map_err(|why| format!("{path}: {why}")),
        Task::Compare(path) => match std::fs::read(path) {
            Ok(bytes) if bytes == file => Ok(()),
            Ok(_) => Err(format!("{path} is not what the Rust answers")),
            Err(why) => Err(format!("{path}: {why}")),
        },
    }
}

fn main() -> ExitCode {
    let words: Vec<String> = std::env::args().skip(1).collect();
    let words: Vec<&str> = words.iter().map(String::as_str).collect();
    let Some(task) = task(&words) else {
        eprintln!("{USAGE}");
        return ExitCode::from(2);
    };
    match run(task) {
        Ok(()) => ExitCode::SUCCESS,
        Err(why) => {
            eprintln!("{why}");
            ExitCode::FAILURE
        }
    }
}

#[cfg(test)]
mod tests {
    use super::{Task, task};

    #[test]
    fn a_path_and_an_option() {
        assert_eq!(task(&["stdin"]), Some(Task::Write("stdin")));
        assert_eq!(task(&["--check", "stdin"]), Some(Task::Compare("stdin")));
    }

    #[test]
    fn no_file_is_called_after_an_option() {
        for words in [
            &[][..],
            &["--check"],
            &["-check"],
            &["-"],
            &["--help"],
            &["--chek", "stdin"],
            &["stdin", "--check"],
            &["--check", "--check"],
            &["--check", "-o"],
            &["--check", "stdin", "stdin"],
        ] {
            assert_eq!(task(words), None, "{words:?}");
        }
    }
}
