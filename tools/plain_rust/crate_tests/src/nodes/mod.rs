//! Tests of what no script shows: a coordinator that opens over a store that has records, or whose first put fails, and a piece that is longer
//! than a frame.
mod coordinators;
mod reassemblies;
