//! Host side of Dillplatter, a log checker for Logic of Constraints.
//!
//! [`part`] calls the proved part through its C interface. The programs and the tests of this package hold it against the
//! second checker, the package `dillplatter-second`.

pub mod part;
