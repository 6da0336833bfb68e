//! Tests of the description of a simulated line: values in texts, whole descriptions, the place of a fault, and options.
mod descriptions;
mod options;
mod values;
