//! A plain model of document 01, for tests: what each entry answers, written from the document and made to be read.
//!
//! | 01 | here |
//! |---|---|
//! | Packed integers | [`integer`] |
//! | Types and their octets | [`types`], [`chars`], [`moment`], [`reader`] |
//! | The rows | [`rows`], [`reader`] |
//! | The frame, measuring, order of refusals | [`message`] |
//! | Asking a row, the lookup | [`asking`] |
//! | Writing | [`spelling`], [`writing`] |
//! | Exchanging a property | [`exchange`] |
//! | The desk program | [`desk`] |

pub mod asking;
pub mod chars;
pub mod desk;
pub mod exchange;
pub mod integer;
pub mod message;
pub mod moment;
pub mod reader;
pub mod refusal;
pub mod rows;
pub mod spelling;
pub mod types;
pub mod writing;

pub use asking::{ask, lookup, As};
pub use desk::desk;
pub use exchange::exchange;
pub use message::{measure, read_frame, read_message, Frame};
pub use refusal::{Answer, Refusal};
pub use rows::Row;
pub use writing::{write, Columns};
