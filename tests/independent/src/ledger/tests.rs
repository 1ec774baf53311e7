//! What would show a wrong reading of document 01's "The ledger", rule by rule.

mod acknowledging;
mod buffers;
mod clocks;
mod data_frames;
mod malformed;
mod opening;
mod polling;
mod refusing;
mod responses;
mod submitting;
