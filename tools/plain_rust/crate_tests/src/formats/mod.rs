//! Tests of what no script shows: the adapters over std, and which octets are a unit or a message, with the first fault of others.
mod captures;
mod joinings;
mod pages;
mod paths;
mod routes;
mod streams;
mod units;
mod words;
