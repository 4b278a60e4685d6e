//! The joined row: the reference from the published trace functions, as compare/extract makes them (for the start that
//! keeps the hour the model in the place of freeze protection's), and the firmware library played beside it.

#[cfg(any(all(calls, events), test))]
mod forbidden;
#[cfg(calls)]
mod library;
#[cfg(calls)]
pub mod measure;
#[cfg(calls)]
mod plans;
#[cfg(all(calls, events))]
pub mod play;
#[cfg(any(events, test))]
mod reference;
pub mod row;
#[cfg(all(calls, events))]
mod tally;
