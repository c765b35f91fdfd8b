//! Times the proved library beside the fast engine of the second implementation, on the same files and steps in one run, and
//! beside the proved library of another commit where the build has one. `tools/benchmark` builds the libraries and runs this;
//! `tools/count-instructions` runs it with arguments (see `count`).

mod cases;
mod count;
mod engines;
mod timing;

use cases::{Case, LISTS, STEPS};
use engines::{CHECKED, ENGINES, OPERATIONS, READING, RUN, WRITING};
use timing::{measure, Times, ROUNDS};

fn main() {
    match &std::env::args().skip(1).collect::<Vec<_>>()[..] {
        [] => print_times(),
        arguments => count::count(arguments),
    }
}

fn print_times() {
    let measured: Vec<(Case, Vec<[Times; 4]>)> = cases::all()
        .into_iter()
        .map(|case| {
            let times = measure(&case);
            (case, times)
        })
        .collect();
    println!("nanoseconds in the quickest and in the median one of {ROUNDS} rounds, and the ratio of medians, proved to fast");
    println!("each round takes another one of {LISTS} lists of {STEPS} steps; checked steps are the first of it");
    println!();
    let pairs = format!("{:>17}{:>17}{:>7}", "proved", "fast", "ratio");
    println!("{:<32}{:>6}   {:<41}   {:<41}", "files, a call", "", "reading", "reading and writing back");
    println!("{:<32}{:>6}   {pairs}   {pairs}", "table", "bytes");
    for (case, times) in &measured {
        println!("{:<32}{:>6}   {}   {}", case.name, case.file.len(), pair(times, READING), pair(times, WRITING));
    }
    println!();
    println!("{:<32}{:>6}   {:<41}   {:<41}", "steps, a step", "", "run", "checked step");
    println!("{:<32}{:>6}   {pairs}   {pairs}", "table", "accept");
    for (case, times) in &measured {
        println!("{:<32}{:>5.0}%   {}   {}", case.name, case.accepted(), pair(times, RUN), pair(times, CHECKED));
    }
    if let Some(old) = ENGINES.iter().position(|engine| engine.name == "old") {
        println!();
        println!("ratio of medians, this commit's proved library to the other one's; - where that one answers steps otherwise");
        println!("{:<32}{}", "table", OPERATIONS.map(|name| format!("{name:>10}")).concat());
        for (case, times) in &measured {
            let ratios = [READING, WRITING, RUN, CHECKED].map(|i| times[0][i].median / times[old][i].median);
            let show = |ratio: f64| if ratio.is_nan() { format!("{:>10}", "-") } else { format!("{ratio:>10.2}") };
            println!("{:<32}{}", case.name, ratios.map(show).concat());
        }
    }
}

/// The times of the proved library and of the fast engine, and their ratio.
fn pair(times: &[[Times; 4]], operation: usize) -> String {
    let (proved, fast) = (times[0][operation], times[1][operation]);
    let show = |t: Times| format!("{:>9.1}{:>8.1}", t.least, t.median);
    format!("{}{}{:>7.2}", show(proved), show(fast), proved.median / fast.median)
}
