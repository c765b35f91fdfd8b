//! Numbers among a program's arguments.

/// The argument at a place, counted from 1, or the default where there is none. The program ends
/// where it is no number.
pub fn argument(place: usize, default: u64) -> u64 {
    match std::env::args().nth(place) {
        None => default,
        Some(text) => match text.parse() {
            Ok(number) => number,
            Err(_) => {
                eprintln!("{text}: not a number");
                std::process::exit(2)
            }
        },
    }
}
