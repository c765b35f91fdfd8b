//! The line engine from Rust, on the folder of a sample: its table is checked, its steps are run and printed, and the table is
//! written back. Then calls without bytes or room and with buffers that are too short are refused, and two tables by a place on a
//! route. It prints what ../example.c prints. Argument: the folder.

use lineengine::{check, code, print, run, steps_in, text_room, write_back, Refusal, RoutePlace, VERSION};
use std::fs::read;
use std::io::Write;
use std::path::Path;

fn main() -> Result<(), Box<dyn std::error::Error>> {
    let folder = std::env::args().nth(1).unwrap_or_else(|| ".".to_string());
    let table = read(Path::new(&folder).join("net"))?;
    let steps = read(Path::new(&folder).join("steps"))?;
    println!("interface {}.{}", VERSION.0, VERSION.1);
    println!("check: {}", number(check(&table)));
    check(&table)?;
    run_and_print(&table, &steps)?;
    written_back(&table);
    nothing_lent(&table, &steps)?;
    refusals(&table, &steps);
    refused_routes(&table, &steps)?;
    Ok(())
}

/// The number of an outcome.
fn number<T>(outcome: Result<T, Refusal>) -> u8 {
    outcome.err().map_or(code::ACCEPTED, Refusal::code)
}

fn run_and_print(table: &[u8], steps: &[u8]) -> std::io::Result<()> {
    let count = steps_in(steps.len());
    let (mut answers, mut text) = (vec![0; count], vec![0; text_room(count)]);
    println!("run: {}", number(run(table, steps, &mut answers)));
    print!("codes:");
    answers.iter().for_each(|answer| print!(" {answer}"));
    let accepted = answers.iter().filter(|&&answer| answer == code::ACCEPTED).count();
    println!("\naccepted: {accepted} of {count}");
    let printed = print(table, steps, &mut answers, &mut text);
    println!("print: {}", number(printed));
    std::io::stdout().write_all(printed.unwrap_or_default())
}

fn written_back(table: &[u8]) {
    let mut back = vec![0; table.len()];
    println!("write back: {}", number(write_back(table, &mut back)));
    println!("same bytes: {}", if back == table { "yes" } else { "no" });
}

/// No table, no steps, no room: any slice may be empty.
fn nothing_lent(table: &[u8], steps: &[u8]) -> std::io::Result<()> {
    let count = steps_in(steps.len());
    let (mut answers, mut text, mut back) = (vec![0; count], vec![0; text_room(count)], vec![0; table.len()]);
    println!(
        "without a table: {} {} {}",
        number(check(&[])),
        number(run(&[], steps, &mut answers)),
        number(write_back(&[], &mut back))
    );
    println!("run without steps: {} {}", number(run(table, &[], &mut answers)), number(run(table, &[], &mut [])));
    println!(
        "without room: {} {} {} {}",
        number(run(table, steps, &mut [])),
        number(print(table, steps, &mut [], &mut text)),
        number(print(table, steps, &mut answers, &mut [])),
        number(write_back(table, &mut []))
    );
    let printed = print(&[], &[], &mut [], &mut text);
    println!("print without a table and steps: {}", number(printed));
    std::io::stdout().write_all(printed.unwrap_or_default())?;
    let printed = print(table, &[], &mut [], &mut text);
    println!("print without steps: {}", number(printed));
    std::io::stdout().write_all(printed.unwrap_or_default())
}

/// What a call has answered: code, train and place as C sees them.
fn tell<T>(call: &str, outcome: Result<T, Refusal>) {
    let at = match outcome {
        Err(Refusal::Table { at: Some(at), .. }) => at,
        _ => RoutePlace { train: 0, place: 0 },
    };
    println!("{call}: {}, train {}, place {}", number(outcome), at.train, at.place);
}

/// Refusals leave every buffer as it was.
fn refusals(table: &[u8], steps: &[u8]) {
    let count = steps_in(steps.len());
    let (mut answers, mut text, mut back) = (vec![99; count], vec![0; text_room(count) - 1], vec![0; table.len()]);
    tell("answers too short", run(table, steps, &mut answers[..count.saturating_sub(1)]));
    println!("text too short: {}", number(print(table, steps, &mut answers, &mut text)));
    tell("buffer too short", write_back(table, &mut back[..table.len() - 1]));
    tell("no mark", check(&table[1..]));
}

/// The last byte of a table is the last segment on the route of its last train, here one of several segments.
fn refused_routes(table: &[u8], steps: &[u8]) -> std::io::Result<()> {
    let count = steps_in(steps.len());
    let (mut answers, mut text, mut back) = (vec![99; count], vec![0; text_room(count)], vec![0; table.len()]);
    let (mut changed, segments, last) = (table.to_vec(), table[5], table.len() - 1);
    changed[last] = segments + 1;
    tell("a segment that there is not", check(&changed));
    changed[last] = changed[last - 1];
    tell("a segment twice", check(&changed));
    tell("run", run(&changed, steps, &mut answers));
    println!("first answer still: {}", answers[0]);
    tell("write back", write_back(&changed, &mut back));
    let printed = print(&changed, steps, &mut answers, &mut text);
    println!("print: {}", number(printed));
    std::io::stdout().write_all(printed.unwrap_or_default())?;
    tell("as it was", check(table));
    Ok(())
}
