//! The original's modules, each taken in whole, and behind the map the text of its shape.
use crate::TryReserveError;

mod node {
    use crate::gone::Gone as _;
    include!("node.rs");
}
mod search;
pub mod map {
    include!("map.rs");
    include!("shape.rs");
}

pub trait Recover<Q: ?Sized> {
    type Key;
    fn get(&self, key: &Q) -> Option<&Self::Key>;
    fn take(&mut self, key: &Q) -> Option<Self::Key>;
    fn replace(&mut self, key: Self::Key) -> Result<Option<Self::Key>, TryReserveError>;
}
pub use map::BTreeMap;
