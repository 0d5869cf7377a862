//! Comparing another program with this one, case by case: on the JSON layer
//! (`case`, `answer`, `cases`), on the reading of one file (`tables`), on the
//! whole gate (`gate`), on the two gates beside it (`gates`), on the text that
//! tells the reasons (`sentences`), on the list beside the tables (`listed`), and
//! on the orders 10 to 14 (`desks`, `quarter`, `drawer`, `either`, `loops`).

pub mod answer;
pub mod case;
pub mod cases;
pub mod command;
pub mod desks;
mod draft;
pub mod drawer;
pub mod either;
mod faulty;
pub mod gate;
pub mod gates;
mod ids;
pub mod listed;
pub mod loops;
mod padded;
pub mod quarter;
pub mod random;
pub mod reply;
pub mod run;
pub mod sentences;
pub mod tables;
mod white_space;
pub mod wire;
mod wrong_characters;
