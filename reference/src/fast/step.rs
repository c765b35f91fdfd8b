//! Steps: kinds 1 to 10, codes 13 to 25 and 29 to 31.

use super::line::{Line, Message, State, Train};
use crate::line::{Request, Wish};
use crate::refusal::Refusal;
use crate::step::Step;
use crate::table::MAX_TRAINS;

impl Line {
    /// Takes a step on any record: 27 first, then as `step`.
    pub fn step_checked(&mut self, bytes: Step) -> u8 {
        if self.fails() {
            return 27;
        }
        self.step(bytes)
    }

    /// Takes all steps of a list; a last one of one or two bytes is answered 13. Refused by 26 where `answers` is
    /// shorter than the list, with nothing done.
    pub fn run(&mut self, steps: &[u8], answers: &mut [u8]) -> Result<(), Refusal> {
        let (whole, rest) = steps.as_chunks();
        let answers = answers.get_mut(..steps.len().div_ceil(3)).ok_or(Refusal::by(26))?;
        if !rest.is_empty() {
            answers[whole.len()] = 13;
        }
        for (&bytes, answer) in whole.iter().zip(answers) {
            *answer = self.step(bytes);
        }
        Ok(())
    }

    /// Takes a step on a record that holds, and gives its code. Inlined into the loop of `run`.
    #[inline(always)]
    pub fn step(&mut self, [kind, train, number]: Step) -> u8 {
        match kind {
            1 | 2 | 7 | 8 => {}
            3..=6 | 9 | 10 if number == 0 => {}
            _ => return 13,
        }
        let index = train.wrapping_sub(1);
        if index >= self.table.counts[2] {
            return 14;
        }
        let index = usize::from(index) % MAX_TRAINS;
        match kind {
            1 => self.trains[index].request_reservation(number),
            2 => self.trains[index].request_lock(number),
            3 => self.answer(index, train),
            4 => self.trains[index].hear(),
            5 => self.enter(index),
            6 => self.clear(index),
            7 => self.trains[index].give_back_reservation(number),
            8 => self.trains[index].give_back_lock(number),
            9 => self.trains[index].lose(),
            _ => self.trains[index].send_again(),
        }
    }

    /// Kind 3: the box answers.
    fn answer(&mut self, index: usize, me: u8) -> u8 {
        let train = &mut self.trains[index];
        if train.message.state != State::Sent {
            return 21;
        }
        let (request, around) = (train.message.request, &train.around);
        let code = match request.wish {
            Wish::Reservation => {
                let at_ahead = request.number == around.ahead;
                let slot = if at_ahead { around.next_ahead } else { around.next_beyond };
                let holder = &mut self.holders[usize::from(slot)];
                if *holder == me {
                    0
                } else if around.against {
                    31
                } else if *holder != 0 {
                    22
                } else {
                    *holder = me;
                    0
                }
            }
            Wish::Lock => {
                let state = &mut self.boxes[usize::from(around.ahead) - 1];
                let holds = |slot: u16| self.holders[usize::from(slot)] == me;
                if state.lock == me {
                    0
                } else if state.lock != 0 {
                    24
                } else if state.sensor {
                    23
                } else if !(holds(around.front_ahead) && holds(around.next_ahead)) {
                    25
                } else {
                    (state.lock, state.position) = (me, around.joining);
                    0
                }
            }
            Wish::ReservationBack => {
                let at_ahead = request.number == around.ahead;
                let slot = if at_ahead { around.next_ahead } else { around.next_beyond };
                free(&mut self.holders[usize::from(slot)], me)
            }
            Wish::LockBack => free(&mut self.boxes[usize::from(around.ahead) - 1].lock, me),
        };
        train.message = Message { state: State::Answered, request, code };
        code
    }

    /// Kind 5: the front passes the box ahead.
    fn enter(&mut self, index: usize) -> u8 {
        let train = &mut self.trains[index];
        let around = &train.around;
        if train.covered == 2 {
            return 20;
        }
        if around.next == 0 {
            return 16;
        }
        if !(train.near && train.far && (train.lock || !around.point)) {
            return 19;
        }
        self.boxes[usize::from(around.ahead) - 1].sensor = true;
        // What it knows of the segment that it enters is of no use any more, and of the one after it it knows nothing.
        *train = Train { place: train.place + 1, covered: 2, near: false, far: false, lock: false, ..*train };
        self.look_around(index);
        0
    }

    /// Kind 6: the tail leaves the box passed.
    fn clear(&mut self, index: usize) -> u8 {
        let train = &mut self.trains[index];
        if train.covered == 1 {
            return 20;
        }
        train.covered = 1;
        let around = &train.around;
        let state = &mut self.boxes[usize::from(around.passed) - 1];
        (state.sensor, state.lock) = (false, 0);
        self.holders[usize::from(around.front_passed)] = 0;
        self.holders[usize::from(around.tail_passed)] = 0;
        0
    }
}

/// A box frees what the train gives back, if it is the train's, and says yes.
fn free(holder: &mut u8, me: u8) -> u8 {
    if *holder == me {
        *holder = 0;
    }
    0
}

impl Train {
    /// Kind 1.
    fn request_reservation(&mut self, number: u8) -> u8 {
        let around = &self.around;
        let at_ahead = number == around.ahead;
        let recorded = if at_ahead { self.near } else { self.far };
        if self.message.state != State::None {
            15
        } else if around.next == 0 {
            16
        } else if !(at_ahead || number == around.beyond) {
            17
        } else if recorded {
            18
        } else {
            self.send(Wish::Reservation, number)
        }
    }

    /// Kind 2.
    fn request_lock(&mut self, number: u8) -> u8 {
        let around = &self.around;
        if self.message.state != State::None {
            15
        } else if around.next == 0 {
            16
        } else if number != around.ahead || !around.point {
            17
        } else if self.lock {
            18
        } else {
            self.send(Wish::Lock, number)
        }
    }

    /// Kind 7.
    fn give_back_reservation(&mut self, number: u8) -> u8 {
        let around = &self.around;
        let at_ahead = number == around.ahead;
        let recorded = if at_ahead { &mut self.near } else { &mut self.far };
        if self.message.state != State::None {
            15
        } else if around.next == 0 {
            16
        } else if !(at_ahead || number == around.beyond) {
            17
        } else if !*recorded {
            29
        } else {
            *recorded = false;
            self.send(Wish::ReservationBack, number)
        }
    }

    /// Kind 8.
    fn give_back_lock(&mut self, number: u8) -> u8 {
        let around = &self.around;
        if self.message.state != State::None {
            15
        } else if around.next == 0 {
            16
        } else if number != around.ahead || !around.point {
            17
        } else if !self.lock {
            29
        } else {
            self.lock = false;
            self.send(Wish::LockBack, number)
        }
    }

    fn send(&mut self, wish: Wish, number: u8) -> u8 {
        self.message = Message { state: State::Sent, request: Request { wish, number }, code: 0 };
        0
    }

    /// Kind 9: what is under way is lost.
    fn lose(&mut self) -> u8 {
        match self.message.state {
            State::Sent | State::Answered => {
                (self.message.state, self.message.code) = (State::Lost, 0);
                0
            }
            State::None | State::Lost => 30,
        }
    }

    /// Kind 10: what was lost is sent again.
    fn send_again(&mut self) -> u8 {
        if self.message.state != State::Lost {
            return 30;
        }
        self.message.state = State::Sent;
        0
    }

    /// Kind 4: the train hears.
    fn hear(&mut self) -> u8 {
        let Message { state, request, code } = self.message;
        if state != State::Answered {
            return 21;
        }
        self.message.state = State::None;
        if code == 0 {
            match request.wish {
                Wish::Lock => self.lock = true,
                Wish::Reservation if request.number == self.around.ahead => self.near = true,
                Wish::Reservation => self.far = true,
                Wish::ReservationBack | Wish::LockBack => {}
            }
        }
        code
    }
}
