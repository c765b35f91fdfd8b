//! What was compared, and how often it differed.

use reference::counts::{print_codes, CODES};
use reference::refusal::Refusal;

/// How many differences are shown.
const SHOWN: usize = 5;

pub struct Counts {
    /// Calls of check, run, print and write back, by the raw functions and by the wrapper.
    pub calls: [usize; 4],
    /// Codes of the files, and of the steps of runs with an accepted file, one for each case.
    pub file_codes: [usize; CODES],
    pub step_codes: [usize; CODES],
    /// Files that are refused by a place on a route, and those whose train and place are different numbers.
    pub by_place: usize,
    pub by_unequal: usize,
    /// Calls that were answered 26.
    pub too_short: [usize; 4],
    /// Calls by the raw functions with a null pointer or several.
    pub with_null: usize,
    pub cases: usize,
    pub cut_short: usize,
    pub differences: usize,
}

impl Counts {
    pub fn new() -> Counts {
        Counts {
            calls: [0; 4],
            file_codes: [0; CODES],
            step_codes: [0; CODES],
            by_place: 0,
            by_unequal: 0,
            too_short: [0; 4],
            with_null: 0,
            cases: 0,
            cut_short: 0,
            differences: 0,
        }
    }

    /// Counts a case.
    pub fn case(&mut self, codes: &Result<Vec<u8>, Refusal>, steps: &[u8]) {
        self.cases += 1;
        match codes {
            Err(refusal) => {
                self.file_codes[refusal.code as usize] += 1;
                self.by_place += usize::from(refusal.place != 0);
                self.by_unequal += usize::from(refusal.train != refusal.place);
            }
            Ok(codes) => {
                self.file_codes[0] += 1;
                self.cut_short += usize::from(!steps.chunks_exact(3).remainder().is_empty());
                codes.iter().for_each(|&code| self.step_codes[code as usize] += 1);
            }
        }
    }

    /// Counts a call with null pointers, which stand for what has length 0.
    pub fn nulls(&mut self, lengths: &[usize]) {
        self.with_null += usize::from(lengths.contains(&0));
    }

    /// Counts a call, and its difference where what was given is not what was expected.
    pub fn call(&mut self, function: Function, code: u8, same: bool, what: impl Fn() -> String) {
        self.calls[function as usize] += 1;
        self.too_short[function as usize] += usize::from(code == 26);
        if !same {
            self.differences += 1;
            if self.differences <= SHOWN {
                println!("{function:?} differs: {:.2000}", what());
            }
        }
    }

    pub fn print(&self) {
        println!("{} cases, {} of them with a last step cut short on an accepted table", self.cases, self.cut_short);
        println!("function    calls  answered 26");
        for function in [Function::Check, Function::Run, Function::Print, Function::WriteBack] {
            let name = format!("{function:?}");
            println!("{name:9} {:7} {:12}", self.calls[function as usize], self.too_short[function as usize]);
        }
        println!("{} calls with a null pointer or several", self.with_null);
        println!("{} files refused by a place on a route, {} where train and place differ", self.by_place, self.by_unequal);
        print_codes(&self.file_codes, &self.step_codes);
        println!("{} differences", self.differences);
    }
}

#[derive(Clone, Copy, Debug)]
pub enum Function {
    Check,
    Run,
    Print,
    WriteBack,
}
