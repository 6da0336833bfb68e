//! Tests of which records of a node's store have a reading, and of the pool that its datagrams wait in.
mod broadcasts;
mod counters;
mod keys;
mod pools;
mod ranks;
