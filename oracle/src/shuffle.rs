//! The same module with its items in another order.

use crate::{layout, tree::Random};

/// The bytes of a module with its items shuffled; none if the module is turned back.
pub fn shuffled(bytes: &[u8], seed: u64) -> Option<Vec<u8>> {
    let module = layout::read(bytes).ok()?;
    let mut out = bytes[..module.items_start()].to_vec();
    let mut items = module.items;
    Random::new(seed).shuffle(&mut items);
    for item in items {
        out.extend(&bytes[item.place..item.place + item.length]);
    }
    Some(out)
}
