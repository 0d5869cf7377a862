//! The second program against hand-made cases of the requirements.

mod agreed;
mod changes;
mod companions;
mod desks;
mod drawer;
mod either;
mod files;
mod gate_harness;
mod gate_sentences;
mod gates;
mod gates_harness;
mod harness;
mod listed;
mod loops;
mod new_harness;
mod places;
mod points;
mod quarter;
mod reasons;
mod reasons_harness;
mod rules;
mod sentences;
mod sentences_harness;
mod tables_harness;

use second::compare::gate::sample;
