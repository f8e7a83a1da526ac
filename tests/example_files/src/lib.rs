//! The documents and states of examples/, and readable listings of them.

pub mod alarms;
pub mod answers;
pub mod bag_table;
pub mod entries;
pub mod fluid_monitor;
pub mod listing;
pub mod names;
pub mod notation;
pub mod written;
