//! Tests of the program, run as a process; what is expected was written down by hand.

mod command_line;
mod comparing;
mod comparing_drawn;
mod drawing;
mod files;
mod h265;
mod limits;
mod lines;
mod output;
mod pages;
mod program;
mod round_trips;
mod stored;
