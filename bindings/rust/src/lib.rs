#![doc = include_str!("../README.md")]

mod convert;
mod copy_map;
mod fault;
#[allow(unsafe_code)]
mod ffi;
mod key;
mod map;
mod map_order;
mod map_place;
mod map_puts;
mod numbers;
mod options;
mod order;
mod place;
mod report;
mod set;
mod shown;
mod typed;
mod typed_copy_map;
mod typed_map;
mod typed_worker;
mod word;
mod worker;

pub use copy_map::{CopyMap, CopyMapWorker};
pub use fault::{Fault, Full};
pub use ffi::{Stats, Waiting};
pub use map::{Guard, InsertError, Map, MapWorker, Reclaimed};
pub use map_order::GuardedWorker;
pub use map_puts::PutError;
pub use numbers::Numbers;
pub use options::{Options, Shape};
pub use order::{Range, Scanned};
pub use place::Advance;
pub use report::Report;
pub use set::Set;
pub use shown::Shown;
pub use typed::{Key, SetOf, Values};
pub use typed_copy_map::{CopyMapOf, CopyMapWorkerOf};
pub use typed_map::{GuardOf, GuardedWorkerOf, MapOf, MapWorkerOf};
pub use typed_worker::WorkerOf;
pub use word::Word;
pub use worker::{Behind, PinGuard, Stamp, Worker};

/// The greatest key, 2^64 - 4.
pub const MOST_KEY: u64 = u64::MAX - 3;
