//! The library's calls through its archive: answers, refusals, and what they leave in the buffers lent.

// Tests are built by the Rust of the day; `rust-version` is for those who link the library.
#![allow(clippy::incompatible_msrv)]

#[path = "../bounds/mod.rs"]
mod bounds;
mod buffers;
#[path = "../due/mod.rs"]
mod due;
#[cfg(target_os = "linux")]
mod fenced;
mod joined;
mod lent;
mod numbers;
mod one_call;
mod order;
#[cfg(target_os = "linux")]
mod pages;
mod questions;
mod rebuilt;
#[path = "../said/mod.rs"]
mod said;
#[cfg(target_os = "linux")]
mod stack;
mod stored;
#[path = "../tidied/mod.rs"]
mod tidied;
mod tidy;
#[path = "../typeask/mod.rs"]
mod typeask;
mod values;
mod vectors;
mod words;
