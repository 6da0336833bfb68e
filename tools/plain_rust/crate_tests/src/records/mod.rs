//! Tests of the stories, the charts and the maps of small records, and of the faults of lines.
mod charts;
mod faults;
mod maps;
mod stories;
