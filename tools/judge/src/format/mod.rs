//! The formats of a judged key.

mod csv;
mod html;
mod text;

pub use csv::csv;
pub use html::html;
pub use text::text;
