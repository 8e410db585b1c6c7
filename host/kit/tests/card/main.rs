//! The transfer card.

mod card_read;
mod card_write;
