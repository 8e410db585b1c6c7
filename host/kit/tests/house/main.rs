//! The C interface from C, building and installing, and the documents.

mod audit_c;
mod build_script;
mod c_header;
mod c_version;
mod documents;
mod info_c;
mod install;
mod packages;
mod pages;
mod reproducible;
mod usage;
