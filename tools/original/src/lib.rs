//! What the original's files need around them: the names that its own lib.rs and btree/mod.rs give, and functions of std that are gone.
#![feature(allocator_api, dropck_eyepatch, ptr_internals, core_intrinsics, try_reserve_kind)]
#![allow(internal_features, warnings)]

extern crate counted_alloc as alloc;
pub use counted_alloc::alloc::nodes_out;

pub mod boxed;
pub mod btree;
mod gone;
mod try_reserve_error;
pub use crate::try_reserve_error::TryReserveError;

pub trait TryClone {
    fn try_clone(&self) -> Result<Self, TryReserveError>
    where
        Self: core::marker::Sized;
}
