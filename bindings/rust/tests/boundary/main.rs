//! The boundary between the port and Rust, as bindings/c/tests has it for C, for positions and for
//! velocities, on memory that is lent.

mod calls;
mod centres;
mod groups;
mod jobs;
mod lengths;
mod margins;
mod modes;
mod proposals;
mod rules;
mod shifts;
mod velocities;
