//! The text of the generated cases, in the terms of the definitions.

use reference::line::{Line, Message, Request, Wish};
use reference::numbers::recorded;
use reference::step::Step;
use reference::table_write::file_bytes;
use std::fmt::Display;

pub const HEADER: &str = "\
-- Generated cases: what the second implementation gives is what the definitions give.
use mathlib.Core.Path.{◌≡◌, refl}
use Rattle.std.specs.Prelude.{ℕ, Bool, true, false, List, [], ◌∷◌}
use Rattle.rules.specs.declared.SwitchBox.{SwitchBox}
use Rattle.rules.specs.declared.Request.TheVariants.{Reserve, Lock, GiveBack, Unlock}
use Rattle.rules.specs.declared.Message.{Message}
use Rattle.rules.specs.declared.Message.TheVariants.{Idle, Sent, Answered, Lost}
use Rattle.rules.specs.declared.Train.{Train}
use Rattle.rules.specs.declared.Line.{Line}
use Rattle.rules.specs.Rows.{filled}
use Rattle.rules.specs.File.{decode}
use Rattle.rules.specs.Line.{no_box, no_train}
use Rattle.rules.specs.Steps.{Step}
use Rattle.rules.specs.Cases.{code_of, sides_of, rewritten, written_to, route_of, printed, order_of, places_of, line_of, atomic_line_of, atomic_answers_to, checked_line, step_of, found}
use Rattle.rules.proofs.Computing.{definitions}

made_box : Bool → ℕ → ℕ → ℕ → ℕ → ℕ → SwitchBox
made_box sensor position lock stem left right =
    record { sensor = sensor; position = position; lock = lock; stem = stem; left = left; right = right }

made_train : ℕ → ℕ → ℕ → ℕ → Bool → Bool → Bool → Message → Train
made_train d r place covered near far lock g =
    record { direction = d; length = r; place = place; covered = covered; near = near; far = far; lock = lock; message = g }

made_line : List ℕ → List ℕ → List Train → List SwitchBox → Line
made_line bytes routes trains boxes =
    record { table = decode bytes; boxes = filled 96 no_box boxes; trains = filled 16 no_train trains; routes = filled 1024 0 routes }

";

/// A theorem: what is found for the question is this list.
pub fn theorem<N: Display>(name: &str, question: &str, expected: &[N]) {
    println!("{name} : found ({question}) ≡ {}", list(expected));
    println!("unfolding definitions made_box made_train made_line");
    println!("{name} = refl\n");
}

pub fn list<N: Display>(numbers: &[N]) -> String {
    let mut text = String::from("(");
    for number in numbers {
        text.push_str(&format!("{number} ∷ "));
    }
    text + "[])"
}

pub fn step_text([kind, train, number]: Step) -> String {
    format!("step_of {kind} {train} {number}")
}

pub fn steps_text(steps: &[Step]) -> String {
    let mut text = String::from("(");
    for &bytes in steps {
        text.push_str(&format!("{} ∷ ", step_text(bytes)));
    }
    text + "[])"
}

/// A record in the text of the definitions.
pub fn line_text(line: &Line) -> String {
    let mut routes = Vec::new();
    let mut trains = String::from("(");
    for (i, train) in line.trains.iter().enumerate() {
        let mut route = train.route.clone();
        route.resize(64, 0);
        routes.extend(route);
        let [near, far, lock] = recorded(line, i);
        trains.push_str(&format!(
            "made_train {} {} {} {} {near} {far} {lock} {} ∷ ",
            train.direction,
            train.route.len(),
            train.front + 1,
            train.covered,
            message_text(train.message),
        ));
    }
    let mut boxes = String::from("(");
    for state in &line.boxes {
        let [stem, left, right] = state.reserved;
        boxes.push_str(&format!(
            "made_box {} {} {} {stem} {left} {right} ∷ ",
            state.sensor, state.position, state.lock
        ));
    }
    format!(
        "(made_line {} {} {trains}[]) {boxes}[]))",
        list(&file_bytes(&line.table)),
        list(&routes)
    )
}

fn message_text(message: Message) -> String {
    let request = |request: Request| match request.wish {
        Wish::Reservation => format!("(Reserve {})", request.number),
        Wish::Lock => format!("(Lock {})", request.number),
        Wish::ReservationBack => format!("(GiveBack {})", request.number),
        Wish::LockBack => format!("(Unlock {})", request.number),
    };
    match message {
        Message::None => "Idle".into(),
        Message::Sent(asked) => format!("(Sent {})", request(asked)),
        Message::Answered(asked, code) => format!("(Answered {} {code})", request(asked)),
        Message::Lost(asked) => format!("(Lost {})", request(asked)),
    }
}
