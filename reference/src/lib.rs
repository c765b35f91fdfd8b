//! Second implementation of the railway line engine, made from the scope
//! paper and the paper of changes alone. Everything but `fast` is plain code over vectors and bytes.

pub mod argument;
pub mod atomic;
pub mod compare;
pub mod counts;
pub mod demand;
pub mod fast;
pub mod fault;
pub mod generate;
pub mod line;
pub mod line_check;
pub mod numbers;
pub mod printout;
pub mod record;
pub mod refusal;
pub mod step;
pub mod step_give_back;
pub mod step_move;
pub mod step_radio;
pub mod step_request;
pub mod table;
pub mod table_check;
pub mod table_read;
pub mod table_write;
