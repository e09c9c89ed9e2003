//! Asks the original's files and prints what they answer (docs/oracle.md).

mod lines;
mod live;
mod random;
mod record;
mod values;
mod witness;

use std::io::{self, BufWriter, Write};
use std::process::ExitCode;

#[global_allocator]
static GUARD: mysqlclient_sys::guard::Guard = mysqlclient_sys::guard::Guard;

const USAGE: &str = "oracle record              the recorded answers
oracle exhaustive          every pair kept, every kind, every pair of code and one flag
oracle live SEED COUNT     so many random cases
oracle law SEED COUNT      so many random tapes with lost figures, and what the law demands of them
oracle witness             what the original does at each witness of docs/DIFFERENCES.md
oracle witness lines       those that the port can be asked too, as lines
oracle witness law         what the law demands where the original goes wrong, as lines
oracle witness tapes DIR   tapes of the rows after a refused one";

fn main() -> ExitCode {
    std::panic::set_hook(Box::new(|panic| {
        if std::env::var_os("ORACLE_PANICS").is_some() {
            eprintln!("{panic}");
        }
    }));
    let words: Vec<String> = std::env::args().skip(1).collect();
    let words: Vec<&str> = words.iter().map(String::as_str).collect();
    let mut to = BufWriter::new(io::stdout().lock());
    let mut out = |line: String| writeln!(to, "{line}").expect("standard output");
    match words.as_slice() {
        ["record"] => record::all(&mut out),
        ["exhaustive"] => live::exhaustive(&mut out),
        ["witness"] => witness::text(&mut out),
        ["witness", "lines"] => witness::lines(&mut out),
        ["witness", "law"] => witness::law(&mut out),
        ["witness", "tapes", folder] => witness::tapes(folder).expect("a folder to write to"),
        [kind @ ("live" | "law"), seed, count] => match (seed.parse(), count.parse::<usize>()) {
            (Ok(seed), Ok(count)) => {
                let mut maker = live::Maker::new(seed);
                let line = if *kind == "live" { live::Maker::line } else { live::Maker::law };
                (0..count).for_each(|_| out(line(&mut maker)));
            }
            _ => return usage(),
        },
        _ => return usage(),
    }
    match to.flush() {
        Ok(()) => ExitCode::SUCCESS,
        Err(_) => ExitCode::FAILURE,
    }
}

fn usage() -> ExitCode {
    eprintln!("{USAGE}");
    ExitCode::FAILURE
}
