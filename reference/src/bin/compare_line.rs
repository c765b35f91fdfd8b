//! Compares another program `line` with this implementation from outside: writes generated files to
//! `net` in a temporary folder, runs the program there with generated steps on standard input, and
//! compares what it prints byte by byte. Standard input is a file, or a pipe that brings the steps in
//! pieces. Prints counts and the number of differences; of the first few differences `net`, `steps`,
//! `expected` and `printed` are kept in the temporary folder. Exit status 1 where there are any.
//! Arguments: the program, seed, number of tables.

use reference::argument::argument;
use reference::counts::{print_codes, Counts, CODES};
use reference::generate::damage::{damaged_file, DAMAGES};
use reference::generate::listing::damaged_listing;
use reference::generate::outside::{driven, table_with_steps};
use reference::generate::prng::Prng;
use reference::generate::tables::largest_table;
use reference::printout::{printout, MAX_STEPS};
use reference::refusal::code_of;
use reference::table::*;
use reference::table_read::read_table;
use reference::table_write::file_bytes;
use std::fs::{create_dir, create_dir_all, remove_dir_all, remove_file, write, File};
use std::io::{Result, Write};
use std::path::{Path, PathBuf};
use std::process::{Child, Command, Stdio};

const S: &[u8] = include_bytes!("../../../samples/s/net");
const S_STEPS: &[u8] = include_bytes!("../../../samples/s/steps");
/// How many differences are kept.
const KEPT: usize = 5;

/// What `net` is.
enum Net {
    Missing,
    Directory,
    Bytes(Vec<u8>),
}

/// The program under test, its folders, and what has been counted.
struct Comparison {
    program: PathBuf,
    folder: PathBuf,
    steps: PathBuf,
    runs: usize,
    accepted: usize,
    lists_cut: usize,
    file_codes: Counts,
    step_codes: Counts,
    differences: usize,
}

fn main() -> Result<()> {
    let Some(program) = std::env::args_os().nth(1) else {
        eprintln!("compare_line PROGRAM [SEED TABLES]");
        std::process::exit(2)
    };
    let (seed, tables) = (argument(2, 1), argument(3, 2_000));
    let root = std::env::temp_dir().join(format!("compare_line_{}", std::process::id()));
    create_dir_all(root.join("run"))?;
    let mut comparison = Comparison {
        program: std::fs::canonicalize(program)?,
        folder: root.join("run"),
        steps: root.join("steps"),
        runs: 0,
        accepted: 0,
        lists_cut: 0,
        file_codes: [0; CODES],
        step_codes: [0; CODES],
        differences: 0,
    };
    comparison.files_that_are_none()?;
    comparison.limits(seed)?;
    for case in 0..tables {
        comparison.table(seed, case)?;
    }
    for case in 0..tables {
        comparison.listing(seed, case)?;
    }
    comparison.print(seed, tables);
    if comparison.differences > 0 {
        eprintln!("the first of them are in {}", root.display());
        std::process::exit(1)
    }
    remove_dir_all(root)
}

impl Comparison {
    /// A generated table with a list of steps of any length, and a file damaged from it.
    fn table(&mut self, seed: u64, case: u64) -> Result<()> {
        let mut rng = Prng::for_case(seed, case);
        let (table, mut steps) = table_with_steps(&mut rng, case);
        self.run(&Net::Bytes(file_bytes(&table)), &steps)?;
        let damaged = damaged_file(&mut rng, &table, (case % u64::from(DAMAGES + 1)) as u8);
        steps.truncate(rng.below(40));
        self.run(&Net::Bytes(damaged), &steps)
    }

    /// The same table with a box, a place of a box or an end of a segment changed, and a short list of steps.
    fn listing(&mut self, seed: u64, case: u64) -> Result<()> {
        let (table, mut steps) = table_with_steps(&mut Prng::for_case(seed, case), case);
        let mut rng = Prng::for_case(seed + 3, case);
        let damaged = damaged_listing(&mut rng, &table);
        steps.truncate(rng.below(40));
        self.run(&Net::Bytes(file_bytes(&damaged)), &steps)
    }

    /// No file, an empty one, a folder, short and long ones.
    fn files_that_are_none(&mut self) -> Result<()> {
        let long = |length: usize| {
            let mut bytes = S.to_vec();
            bytes.resize(length, 0);
            bytes
        };
        for steps in [&[][..], S_STEPS] {
            self.run(&Net::Missing, steps)?;
            self.run(&Net::Directory, steps)?;
            let around = [VERSION_1, VERSION_2].map(longest_length).map(|length| [length - 1, length, length + 1]);
            let others = [0, 1, 7, 8, 9, 45, 46, 47, 4_095, 4_096, 4_097, 65_536, 100_000];
            for length in others.into_iter().chain(around.concat()) {
                self.run(&Net::Bytes(long(length)), steps)?;
            }
            for version in [VERSION_1, VERSION_2] {
                self.run(&Net::Bytes(longest_file(version)), steps)?;
            }
            self.run(&Net::Bytes(vec![0xFF; 100_000]), steps)?;
        }
        Ok(())
    }

    /// Lists about as long as may be, on table S, on tables of the largest size and on a refused file;
    /// and every front part of the ten steps of table S.
    fn limits(&mut self, seed: u64) -> Result<()> {
        for length in 0..=S_STEPS.len() {
            self.run(&Net::Bytes(S.to_vec()), &S_STEPS[..length])?;
        }
        let most = 3 * MAX_STEPS;
        let s = read_table(S).expect("table S is accepted");
        let largest = |case| largest_table(&mut Prng::for_case(seed + 1, case));
        for table in [s, largest(0), largest(1), largest(2)] {
            let mut rng = Prng::for_case(seed + 2, table.boxes.len() as u64);
            let steps = driven(&mut rng, &table, 80_000);
            let net = Net::Bytes(file_bytes(&table));
            for length in [most - 3, most - 2, most - 1, most, most + 1, most + 2, most + 3, most + 4, steps.len()] {
                self.run(&net, &steps[..length])?;
            }
        }
        self.run(&Net::Bytes(S[..45].to_vec()), &vec![1; most + 1])
    }

    /// Runs the program and compares what it prints.
    fn run(&mut self, net: &Net, steps: &[u8]) -> Result<()> {
        self.put(net)?;
        write(&self.steps, steps)?;
        let file: &[u8] = match net {
            Net::Bytes(bytes) => bytes,
            _ => &[],
        };
        let expected = printout(file, steps);
        let mut command = Command::new(&self.program);
        command.current_dir(&self.folder).stdout(Stdio::piped());
        let output = match self.runs % 8 {
            7 => in_pieces(command.stdin(Stdio::piped()).spawn()?, steps)?,
            _ => command.stdin(File::open(&self.steps)?).output()?,
        };
        self.count(file, steps, &expected);
        if output.stdout != expected || !output.status.success() {
            self.keep(net, steps, &expected, &output.stdout)?;
        }
        self.remove(net)
    }

    fn put(&self, net: &Net) -> Result<()> {
        match net {
            Net::Missing => Ok(()),
            Net::Directory => create_dir(self.folder.join("net")),
            Net::Bytes(bytes) => write(self.folder.join("net"), bytes),
        }
    }

    fn remove(&self, net: &Net) -> Result<()> {
        match net {
            Net::Missing => Ok(()),
            Net::Directory => remove_dir_all(self.folder.join("net")),
            Net::Bytes(_) => remove_file(self.folder.join("net")),
        }
    }

    /// Counts the codes of the expected text.
    fn count(&mut self, file: &[u8], steps: &[u8], expected: &[u8]) {
        self.runs += 1;
        self.lists_cut += usize::from(expected.ends_with(b"\nmore\n"));
        let code = code_of(&read_table(file));
        self.file_codes[usize::from(code)] += 1;
        if code != 0 {
            return;
        }
        self.accepted += 1;
        let text = String::from_utf8_lossy(expected);
        for line in text.lines().take(steps.len().div_ceil(3).min(MAX_STEPS)) {
            let code = line.rsplit(' ').next().and_then(|word| word.parse::<usize>().ok());
            self.step_codes[code.expect("a step line ends in a code")] += 1;
        }
    }

    fn keep(&mut self, net: &Net, steps: &[u8], expected: &[u8], printed: &[u8]) -> Result<()> {
        self.differences += 1;
        if self.differences > KEPT {
            return Ok(());
        }
        let folder = self.folder.with_file_name(format!("difference_{}", self.differences));
        create_dir_all(&folder)?;
        if let Net::Bytes(bytes) = net {
            write(folder.join("net"), bytes)?;
        }
        for (name, bytes) in [("steps", steps), ("expected", expected), ("printed", printed)] {
            write(Path::new(&folder).join(name), bytes)?;
        }
        Ok(())
    }

    fn print(&self, seed: u64, tables: u64) {
        let steps: usize = self.step_codes.iter().sum();
        println!("seed {seed}: {tables} tables, {} runs, {} of them with an accepted file", self.runs, self.accepted);
        println!("{steps} steps taken, {} lists cut at {MAX_STEPS}", self.lists_cut);
        print_codes(&self.file_codes, &self.step_codes);
        println!("{} differences", self.differences);
    }
}

/// Gives the program its input through a pipe, in pieces of uneven length.
fn in_pieces(mut child: Child, steps: &[u8]) -> Result<std::process::Output> {
    let mut stdin = child.stdin.take().expect("the input is a pipe");
    let steps = steps.to_vec();
    let writer = std::thread::spawn(move || {
        let size = 1 + steps.len() / 7;
        for piece in steps.chunks(size) {
            // A program that has read enough may be gone.
            if stdin.write_all(piece).is_err() {
                return;
            }
            std::thread::yield_now();
        }
    });
    let output = child.wait_with_output();
    writer.join().expect("the writer ends");
    output
}

/// Bytes of the longest file of a version that code 5 lets through: 96 segments and boxes, 16 trains with route lengths
/// of 255.
fn longest_length(version: u16) -> usize {
    network_bytes(version, MAX_SEGMENTS, MAX_BOXES) + MAX_TRAINS * (TRAIN_BYTES + 255)
}

/// Such a file, of 4,792 bytes in version 1 and of 4,888 in version 2.
fn longest_file(version: u16) -> Vec<u8> {
    let mut file = vec![0x4E, 0x45, 0x54, 0, version as u8, 96, 96, 16];
    file.resize(network_bytes(version, MAX_SEGMENTS, MAX_BOXES), 1);
    for _ in 0..MAX_TRAINS {
        file.extend([0, 255]);
        file.extend([1; 255]);
    }
    assert_eq!(file.len(), longest_length(version));
    file
}
