//! Tests of the reference over its public items.

mod chacha;
mod linear;
mod machine;
mod orders;
mod parser;
mod replica;
mod rows;
mod scenarios;
mod settled;
