//! Which pointer each number stands for. A number keeps its pointer until it is given to another one.
use std::collections::HashMap;
use std::sync::{Mutex, PoisonError, RwLock};

/// A pointer that is kept as a number has these upper bits, and below the number its own three lowest bits, which may be tags.
const CODED: u64 = 0x6f63;
const TAGS: u64 = 7;
/// No smaller number is an address: the system leaves the first pages out.
const FIRST_ADDRESS: u64 = 1 << 16;
const END_OF_ADDRESSES: u64 = 1 << 47;

/// Whether a value of an `AtomicPtr` may be an address. Small numbers and those beyond a process's memory are kept as they are.
pub(crate) fn is_address(value: u64) -> bool {
    (FIRST_ADDRESS..END_OF_ADDRESSES).contains(&value)
}

/// The pointer without its tags, and the tags.
pub(crate) fn untagged(value: u64) -> (u64, u64) {
    (value & !TAGS, value & TAGS)
}

pub(crate) fn coded(number: u32, tags: u64) -> u64 {
    CODED << 48 | u64::from(number) << 3 | tags
}

#[derive(Default)]
pub(crate) struct Pointers {
    numbers: Mutex<HashMap<u64, u32>>,
    pointers: RwLock<Vec<u64>>,
}

impl Pointers {
    /// The number of a pointer, which it may be given here.
    pub(crate) fn number_of(&self, pointer: u64) -> u32 {
        let mut numbers = super::held(&self.numbers);
        if let Some(&number) = numbers.get(&pointer) {
            return number;
        }
        let mut pointers = self.pointers.write().unwrap_or_else(PoisonError::into_inner);
        let number = u32::try_from(pointers.len()).unwrap_or(u32::MAX);
        pointers.push(pointer);
        numbers.insert(pointer, number);
        number
    }

    /// From now on the number stands for this pointer.
    pub(crate) fn bind(&self, number: u32, pointer: u64) {
        let mut pointers = self.pointers.write().unwrap_or_else(PoisonError::into_inner);
        let at = number as usize;
        if pointers.len() <= at {
            pointers.resize(at + 1, 0);
        }
        pointers[at] = pointer;
    }

    /// The pointer for which a value stands, or the value itself.
    pub(crate) fn pointer(&self, value: u64) -> u64 {
        if value >> 48 != CODED {
            return value;
        }
        let pointers = self.pointers.read().unwrap_or_else(PoisonError::into_inner);
        let at = (value & 0xffff_ffff_ffff) >> 3;
        pointers.get(at as usize).map_or(value, |pointer| pointer | value & TAGS)
    }

    pub(crate) fn taken(&self) -> Pointers {
        let pointers = std::mem::take(&mut *self.pointers.write().unwrap_or_else(PoisonError::into_inner));
        Pointers { numbers: Mutex::default(), pointers: RwLock::new(pointers) }
    }
}
