//! Cases of buckets and minutes.

use crate::{
    case::{differ, Case},
    shrink,
};

/// A name and a number of bucket bits.
pub struct Bucket {
    pub name: u32,
    pub bits: u32,
}

impl Case for Bucket {
    fn difference(&self) -> Option<String> {
        let Bucket { name, bits } = *self;
        differ("tg_bucket", taskgraph::raw::bucket(name, bits), second_implementation::bucket::bucket(name, bits))
    }

    fn smaller(&self) -> Box<dyn Iterator<Item = Self> + '_> {
        let names = shrink::lower(u64::from(self.name)).map(|name| Bucket { name: name as u32, ..*self });
        let bits = shrink::lower(u64::from(self.bits)).map(|bits| Bucket { bits: bits as u32, ..*self });
        Box::new(names.chain(bits))
    }

    fn show(&self) -> String {
        format!("name 0x{:x}, {} bits", self.name, self.bits)
    }
}

/// A class.
pub struct Minutes {
    pub class: u32,
}

impl Case for Minutes {
    fn difference(&self) -> Option<String> {
        let expected = second_implementation::minutes::minutes(self.class).unwrap_or(0);
        differ("tg_minutes", taskgraph::raw::minutes(self.class), expected)
    }

    fn smaller(&self) -> Box<dyn Iterator<Item = Self> + '_> {
        Box::new(shrink::lower(u64::from(self.class)).map(|class| Minutes { class: class as u32 }))
    }

    fn show(&self) -> String {
        format!("class 0x{:x}", self.class)
    }
}
