//! The second program: an implementation of its own, from the papers alone. It shares nothing with the proved library but
//! the papers, and imports nothing of the other packages.
//!
//! - `number`, `part`, `answer`: what is answered.
//! - `bytes`, `width`, `date`, `key`: numbers and strings, packed dates, key headers, pieces and the key writer.
//! - `audit`, `rules`: the audit, and the rules for a pass once more, written naively; `mode` is which of the two audits.
//! - `salvage`: a gap over what breaks the chain.
//! - `card`: a file to a transfer card and back.
//! - `view`: an audit's rows as a viewer has them.
//! - `streamer`: the StreamerInfo reader.
//! - `fast`: audit, salvage, card and StreamerInfo reader once more, written for speed.

#![forbid(unsafe_code)]

/// Names for 0, 1, 2 and so on.
macro_rules! counted {
    ($($name:ident)*) => { counted! { 0; $($name)* } };
    ($value:expr; $name:ident $($rest:ident)*) => {
        pub const $name: u64 = $value;
        counted! { $value + 1; $($rest)* }
    };
    ($value:expr;) => {};
}

pub mod answer;
pub mod audit;
pub mod bytes;
pub mod card;
pub mod date;
pub mod fast;
pub mod key;
pub mod mode;
pub mod number;
pub mod part;
pub mod rules;
pub mod salvage;
pub mod streamer;
pub mod view;
pub mod width;

pub use answer::Answer;
pub use mode::Mode;
