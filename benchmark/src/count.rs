//! One operation of one engine, for a program that counts instructions: the arguments are engine, operation, table (`s`,
//! `largest`, `points` or `random`) and a number, of steps or of readings. All else is the same for every number, so that the
//! difference of two counts is of the operation alone.

use crate::cases::{largest, points, random_bytes, table_s};
use crate::engines::{ENGINES, OPERATIONS, READING};

pub fn count(arguments: &[String]) {
    let [engine, operation, table, number] = arguments else {
        panic!("engine, operation, table, number");
    };
    let engine = ENGINES.iter().find(|e| e.name == engine).expect("the name of an engine");
    let operation = OPERATIONS.iter().position(|name| name == operation).expect("the name of an operation");
    let case = match &table[..] {
        "s" => table_s(),
        "largest" => largest(0),
        "points" => points(),
        "random" => random_bytes(),
        _ => panic!("no such table"),
    };
    let number: usize = number.parse().expect("a number");
    let (call, steps) = (engine.calls[operation], &case.lists[0].steps);
    let mut buffer = vec![0; steps.len()];
    match operation {
        READING => assert!((0..number).all(|_| call(&case.file, &[], &mut []) == 0)),
        _ => assert_eq!(call(&case.file, &steps[..3 * number], &mut buffer), 0),
    }
}
