//! Tests of what a simulated line is made of: draws, places, the air, and what is counted of a run.
mod air;
mod draws;
mod figures;
mod places;
