//! Stands for the crate `alloc` in the original: the same names, but with an allocator that counts the nodes that are out.
#![feature(allocator_api)]
extern crate alloc as real;
pub use real::*;

pub mod alloc {
    pub use real::alloc::Layout;
    pub use real::alloc::*;
    use core::ptr::NonNull;
    use core::sync::atomic::{AtomicUsize, Ordering::Relaxed};

    static OUT: AtomicUsize = AtomicUsize::new(0);

    /// How many nodes are out.
    pub fn nodes_out() -> usize {
        OUT.load(Relaxed)
    }

    #[derive(Clone, Copy, Default, Debug)]
    pub struct Global;

    unsafe impl core::alloc::Allocator for Global {
        fn allocate(&self, layout: Layout) -> Result<NonNull<[u8]>, core::alloc::AllocError> {
            if cfg!(feature = "count") {
                OUT.fetch_add(1, Relaxed);
            }
            real::alloc::Global.allocate(layout)
        }

        unsafe fn deallocate(&self, at: NonNull<u8>, layout: Layout) {
            if cfg!(feature = "count") {
                OUT.fetch_sub(1, Relaxed);
            }
            real::alloc::Global.deallocate(at, layout)
        }
    }
}
