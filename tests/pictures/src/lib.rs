//! Pictures for the pages in docs/.

pub mod svg;
