//! A second implementation, written from document 01 alone, that the proved programs are compared with.

pub mod audit;
pub mod checksum;
pub mod command;
pub mod examples;
pub mod ids;
pub mod ledger;
pub mod line;
pub mod listing;
pub mod message;
pub mod random;
pub mod reader;
pub mod rows;
pub mod session;
pub mod vectors;
pub mod writer;
