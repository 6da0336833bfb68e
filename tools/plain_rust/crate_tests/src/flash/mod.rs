//! Tests of a keeper over flash: power fails at each program and each erase in turn, in each way; and what an opening programs.
mod openings;
mod power_cuts;
