//! The monitor of document 01, as document 02 amends it, in plain Rust, jet by jet, in those documents' words
//! and order. It is slow and obvious on purpose: it is what other builds are compared to.
//!
//! Lowest part first: `jet`, `jet_string`, `record`, `hall`, `reader`, `report`, `monitor`,
//! `feed`, `state`; and the way back, `writer`. The other modules make input and run the programs
//! that are compared.

pub mod feed;
pub mod hall;
pub mod jet;
pub mod jet_string;
pub mod monitor;
pub mod reader;
pub mod record;
pub mod report;
pub mod state;
pub mod writer;

pub mod beginnings;
pub mod behind;
pub mod both_ways_cases;
pub mod cases;
pub mod claim_cases;
pub mod closed_valve_cases;
pub mod counted;
pub mod difference_cases;
pub mod dispatch;
pub mod drop_cases;
pub mod foreign;
pub mod foreign_cases;
pub mod generate;
pub mod leak_cases;
pub mod lost_cases;
pub mod manifold_cases;
pub mod maps;
pub mod old_input;
pub mod outbox_cases;
pub mod process;
pub mod random;
pub mod request;
pub mod request_cases;
pub mod request_input;
pub mod score;
pub mod script;
pub mod slips;
pub mod strangers;
pub mod tally;
pub mod temperature_cases;
pub mod tenant;
pub mod tenant_cases;
pub mod tenant_line;
pub mod tenant_night;
pub mod tenants;
pub mod world;

pub use monitor::Monitor;
