//! A stand-in for libcapi.a: the same exports, written in Rust from the documents, with one wilful fault at will.
//!
//! It shows that the differential runs find what they should, and it is a second reading of the documents beside the
//! published Rust. It is no part of the product.

#![allow(clippy::needless_range_loop)]
// A comparison written the other way round is one of the faults.
#![allow(clippy::neg_cmp_op_on_partial_ord)]

mod builders;
pub mod exports;
pub mod fault;
mod fits;
mod frames;
mod layout;
mod leftover;
mod qr;
mod root;
mod sizes;
mod square;
mod why;
