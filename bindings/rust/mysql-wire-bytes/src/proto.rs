//! `mysql_common`'s paths.

pub mod codec;
