//! Trains and boxes of a line as numbers, in the order and with the numbers that the crates use.

use crate::line::*;

/// Numbers of a train and of a box.
pub const TRAIN_NUMBERS: usize = 11;
pub const BOX_NUMBERS: usize = 6;

/// The next segment of a train, the boxes at its near and far end, and the box ahead.
pub fn ends_of_next(line: &Line, i: usize) -> Option<(u8, u8, u8, u8)> {
    let train = &line.trains[i];
    let next = train.next_segment()?;
    let table = &line.table;
    Some((
        next,
        table.near_box(next, train.direction),
        table.far_box(next, train.direction),
        line.box_ahead(i),
    ))
}

/// What a train has recorded of next: near end, far end, lock of the box ahead.
pub fn recorded(line: &Line, i: usize) -> [bool; 3] {
    let holdings = &line.trains[i].holdings;
    match ends_of_next(line, i) {
        None => [false; 3],
        Some((next, near, far, ahead)) => [
            holdings.reservation(&line.table, next, near),
            holdings.reservation(&line.table, next, far),
            holdings.lock(ahead),
        ],
    }
}

/// State (0 none, 1 sent, 2 answered, 3 lost), kind, box and code of a message.
pub fn message_numbers(message: Message) -> [u8; 4] {
    match message {
        Message::None => [0; 4],
        Message::Sent(Request { wish, number }) => [1, wish as u8, number, 0],
        Message::Answered(Request { wish, number }, code) => [2, wish as u8, number, code],
        Message::Lost(Request { wish, number }) => [3, wish as u8, number, 0],
    }
}

/// Direction, length, place, covered, what is recorded of next, and the message.
pub fn train_numbers(line: &Line, i: usize) -> [u8; TRAIN_NUMBERS] {
    let train = &line.trains[i];
    let place = (train.front as u8).wrapping_add(1);
    let [near, far, lock] = recorded(line, i).map(u8::from);
    let [state, kind, number, code] = message_numbers(train.message);
    let length = train.route.len() as u8;
    [train.direction, length, place, train.covered, near, far, lock, state, kind, number, code]
}

/// Sensor, position, lock and holders.
pub fn box_numbers(state: &BoxState) -> [u8; BOX_NUMBERS] {
    let [stem, left, right] = state.reserved;
    [u8::from(state.sensor), state.position, state.lock, stem, left, right]
}

/// All trains and boxes of a line.
pub fn line_numbers(line: &Line) -> Vec<u8> {
    let trains = (0..line.trains.len()).flat_map(|i| train_numbers(line, i));
    trains.chain(line.boxes.iter().flat_map(box_numbers)).collect()
}
