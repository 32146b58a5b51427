// The six programs in one: it goes by the last part of the name that it is called by. `make quick` builds it, unproved; each program by
// itself is crates/NAME/src/main.rt.
#![tactic(auto)]

use run_base::{Status, code_of_failure};
use showing_run::{view, why};
use std::env;
use std::process::ExitCode;
use tor_arena::Keys;
use tor_io::{FileShelf, StdSink};
use tor_run::infer;
use tor_words::words_of;
use torcheck_run::check;
use torgrade_run::grade;
use torleak_run::hunt;
use torrank_run::rank;

#[derive(Clone, Copy)]
enum Program {
    Tor,
    Torcheck,
    Torgrade,
    Torleak,
    Torrank,
    Torwhy,
    Torview,
}

// The program of a name, which may be a path. None for any other.
fn program_of(path: &str) -> Option<Program> {
    let name = match path.rfind('/') {
        Some(slash) => &path[slash + 1..],
        None => path,
    };
    match name {
        "tor" => Some(Program::Tor),
        "torcheck" => Some(Program::Torcheck),
        "torgrade" => Some(Program::Torgrade),
        "torleak" => Some(Program::Torleak),
        "torrank" => Some(Program::Torrank),
        "torwhy" => Some(Program::Torwhy),
        "torview" => Some(Program::Torview),
        _ => None,
    }
}

fn main(rt: HostRuntime) -> ExitCode {
    let named = match env::args(&rt) {
        Ok(mut args) => args.next(),
        Err(error) => return ExitCode::from(code_of_failure(&error)),
    };
    let Some(program) = named.and_then(|name| program_of(name.as_str())) else {
        let _ = rt.stderr().write_all(b"this program goes by the name that it is called by: tor, torcheck, torgrade, torleak, torrank, torwhy or torview\n");
        return ExitCode::from(Status::Usage.code());
    };
    let args = match env::args(&rt) {
        Ok(args) => args,
        Err(error) => return ExitCode::from(code_of_failure(&error)),
    };
    let Ok(words) = words_of(rt.alloc(), args) else {
        return ExitCode::from(Status::NoMemory.code());
    };
    let mut out = StdSink::new(rt.stdout());
    let mut err = StdSink::new(rt.stderr());
    let alloc = rt.alloc();
    let keys = Keys::new(&rt);
    let mut shelf = FileShelf::new(rt);
    let status = match program {
        Program::Tor => infer(alloc, keys, &words, &mut shelf, &mut out, &mut err),
        Program::Torcheck => check(alloc, keys, &words, &mut shelf, &mut out, &mut err),
        Program::Torgrade => grade(alloc, keys, &words, &mut shelf, &mut out, &mut err),
        Program::Torleak => hunt(alloc, keys, &words, &mut shelf, &mut out, &mut err),
        Program::Torrank => rank(alloc, keys, &words, &mut shelf, &mut out, &mut err),
        Program::Torwhy => why(alloc, keys, &words, &mut shelf, &mut out, &mut err),
        Program::Torview => view(alloc, keys, &words, &mut shelf, &mut out, &mut err),
    };
    ExitCode::from(status.code())
}
