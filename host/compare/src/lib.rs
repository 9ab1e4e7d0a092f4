//! What the proved library is compared with, and on what.
pub mod generate;
pub mod lent;
pub mod random;
pub mod reference;
