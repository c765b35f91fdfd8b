//! Prints cases as readable text: name, table bytes in hex, steps, printout.
//! With a directory as fourth argument the cases are written there instead, as
//! `N.net`, `N.steps` and `N.expected`, to run another program on them.
//! Arguments: seed, number of cases, steps per case, directory.

use reference::argument::argument;
use reference::generate::damage::{damaged_file, DAMAGES};
use reference::generate::prng::Prng;
use reference::generate::steps::Driver;
use reference::generate::tables::{accepted_table, largest_table};
use reference::line::start_line;
use reference::printout::printout;
use reference::step::step;
use reference::table::Table;
use reference::table_write::file_bytes;
use std::io::Write;
use std::path::Path;

/// One case: the bytes of `net` and of standard input.
struct Case {
    name: String,
    net: Vec<u8>,
    input: Vec<u8>,
}

fn main() -> std::io::Result<()> {
    let (seed, cases, steps) = (argument(1, 1), argument(2, 12), argument(3, 40));
    let directory = std::env::args().nth(4);
    let mut out = std::io::BufWriter::new(std::io::stdout().lock());
    for case in 0..cases {
        let made = make_case(seed, case, steps as usize);
        let printed = printout(&made.net, &made.input);
        match &directory {
            Some(directory) => write_case(Path::new(directory), case, &made, &printed)?,
            None => list_case(&mut out, case, &made, &printed)?,
        }
    }
    out.flush()
}

/// Three kinds of cases in turn: small tables, any tables, damaged files.
fn make_case(seed: u64, case: u64, steps: usize) -> Case {
    let mut rng = Prng::for_case(seed, case);
    let (name, table) = match case % 6 {
        5 => ("largest table", largest_table(&mut rng)),
        4 => ("damaged file", accepted_table(&mut rng)),
        _ => ("table", accepted_table(&mut rng)),
    };
    let mut input = steps_for(&mut rng, &table, steps);
    if rng.chance(20) {
        input.truncate(input.len().saturating_sub(rng.between(1, 2)));
    }
    let net = match case % 6 {
        4 => {
            let aim = rng.below(usize::from(DAMAGES)) as u8;
            damaged_file(&mut rng, &table, aim)
        }
        _ => file_bytes(&table),
    };
    Case { name: name.into(), net, input }
}

fn steps_for(rng: &mut Prng, table: &Table, steps: usize) -> Vec<u8> {
    let mut line = start_line(table);
    let mut driver = Driver::new(rng);
    let mut input = Vec::new();
    for _ in 0..steps {
        let bytes = driver.next_step(rng, &line);
        step(&mut line, bytes);
        input.extend_from_slice(&bytes);
    }
    input
}

fn write_case(directory: &Path, case: u64, made: &Case, printed: &[u8]) -> std::io::Result<()> {
    std::fs::create_dir_all(directory)?;
    std::fs::write(directory.join(format!("{case}.net")), &made.net)?;
    std::fs::write(directory.join(format!("{case}.steps")), &made.input)?;
    std::fs::write(directory.join(format!("{case}.expected")), printed)
}

fn list_case(out: &mut impl Write, case: u64, made: &Case, printed: &[u8]) -> std::io::Result<()> {
    let hex: Vec<String> = made.net.iter().map(|b| format!("{b:02X}")).collect();
    let steps: Vec<String> = made
        .input
        .chunks(3)
        .map(|s| {
            let bytes: Vec<String> = s.iter().map(u8::to_string).collect();
            format!("({})", bytes.join(","))
        })
        .collect();
    writeln!(out, "case {case}: {}", made.name)?;
    writeln!(out, "net {}", hex.join(" "))?;
    writeln!(out, "steps {}", steps.join(" "))?;
    out.write_all(printed)?;
    writeln!(out)
}
