//! What is installed: the commands `rootaudit` and `rootkeys`, and the C interface of the proved library, over which they
//! stand. It imports nothing of the other packages.

pub mod ffi;
pub mod rootaudit;
pub mod rootkeys;
pub mod usage;
