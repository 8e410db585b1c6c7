//! The audit, its rows for a viewer, and salvage.

mod audit;
mod audit_copies;
mod audit_faults;
mod audit_files;
mod audit_gaps;
mod audit_large;
mod audit_order;
mod audit_salvaged;
mod audit_waiting;
mod audit_wide;
mod long_strings_audit;
mod salvage;
mod second_audit;
mod shapes;
mod threads;
mod view;
mod wide_header;
