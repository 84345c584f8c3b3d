//! An item as the words of a cell.

use std::boxed::Box;
use std::mem::{align_of, size_of, MaybeUninit};

/// What a cell holds: an item of at most its size and alignment, or a box of it. Its owner knows which item it has. The padding of an
/// item may stay uninitialised: the words are copied, and nothing reads them as numbers.
#[repr(C)]
pub struct Words([MaybeUninit<u64>; 4]);

/// Whether items of this type lie in the words, and not in a box.
const fn is_inline<T>() -> bool {
    size_of::<T>() <= size_of::<Words>() && align_of::<T>() <= align_of::<Words>()
}

impl Words {
    /// No item.
    pub(super) fn empty() -> Words {
        Words([MaybeUninit::new(0); 4])
    }

    /// The words that own this item.
    pub(super) fn of<T>(item: T) -> Words {
        let mut words = Words::empty();
        if is_inline::<T>() {
            // SAFETY: it fits.
            unsafe { words.0.as_mut_ptr().cast::<T>().write(item) };
        } else {
            words.0[0].write(Box::into_raw(Box::new(item)) as usize as u64);
        }
        words
    }

    /// The item.
    ///
    /// # Safety
    /// The words own an item of this type, which is taken out once.
    pub(super) unsafe fn into_item<T>(self) -> T {
        if is_inline::<T>() {
            // SAFETY: the item lies there.
            unsafe { self.0.as_ptr().cast::<T>().read() }
        } else {
            // SAFETY: the word came from `Box::into_raw`, on this machine.
            unsafe { *Box::from_raw(self.0[0].assume_init() as usize as *mut T) }
        }
    }
}

#[cfg(test)]
mod tests {
    use super::{is_inline, Words};
    use std::string::String;
    use std::sync::Arc;
    use std::vec;

    fn is_the_same<T: PartialEq + Clone + std::fmt::Debug>(item: T, inline: bool) {
        assert_eq!(is_inline::<T>(), inline);
        // SAFETY: the words own the item.
        assert_eq!(unsafe { Words::of(item.clone()).into_item::<T>() }, item);
    }

    #[derive(Clone, Debug, PartialEq)]
    #[repr(align(16))]
    struct Aligned(u8);

    #[test]
    fn items_of_each_size_come_out_as_they_went_in() {
        is_the_same((), true);
        is_the_same(7u8, true);
        is_the_same((1u8, 2u64, "three"), true);
        is_the_same([1u64, 2, 3, 4], true);
        is_the_same(String::from("a text"), true);
        is_the_same([1u8; 33], false);
        is_the_same([1u64; 5], false);
        is_the_same(Aligned(3), false);
        is_the_same((Aligned(3), String::from("a text"), vec![1, 2, 3]), false);
    }

    #[test]
    fn an_item_in_a_box_is_not_copied() {
        let item = Arc::new(());
        let words = Words::of((Arc::clone(&item), [0u64; 9]));
        assert_eq!(Arc::strong_count(&item), 2);
        // SAFETY: the words own the item.
        drop(unsafe { words.into_item::<(Arc<()>, [u64; 9])>() });
        assert_eq!(Arc::strong_count(&item), 1);
    }
}
