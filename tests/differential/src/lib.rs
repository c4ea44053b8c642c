//! The proved library and `reference/` side by side: the same inputs into both, and
//! what each leaves behind compared.

pub mod book;
pub mod compare;
pub mod lent;
pub mod molsadriu;
pub mod net;
pub mod operations;
pub mod rescue;
pub mod season;
pub mod sheet;
