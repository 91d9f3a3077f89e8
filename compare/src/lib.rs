//! Makes saga books of every kind, good and bad, from a seed, so that programs
//! that read books can be run on the same ones and compared.

mod aim;
pub mod answers;
mod barred;
pub mod books;
mod carried;
pub mod cases;
pub mod counts;
mod damage;
mod draft;
mod editions;
mod families;
mod mending;
mod model;
mod noise;
mod ordered;
mod orders;
mod passed;
mod plans;
mod random;
mod replay;
mod singles;
mod story;
mod stuck;
mod tables;
mod terms;
mod undoing;
