//! Slices of words or bytes with guards around them.

/// Words or bytes lent to the library, with guards before and behind.
pub struct Guarded<T = u16> {
    items: Vec<T>,
}

const GUARD: usize = 8;

/// What a guard is made of.
pub trait Item: Copy + PartialEq {
    fn guard(place: usize) -> Self;
}

impl Item for u16 {
    fn guard(place: usize) -> u16 {
        0xA5C3_u16.rotate_left(place as u32 % 16) ^ place as u16
    }
}

impl Item for u8 {
    fn guard(place: usize) -> u8 {
        u16::guard(place) as u8
    }
}

impl<T: Item> Guarded<T> {
    pub fn new(content: &[T]) -> Self {
        let mut items: Vec<T> = (0..GUARD).map(T::guard).collect();
        items.extend_from_slice(content);
        items.extend((0..GUARD).map(T::guard));
        Guarded { items }
    }

    pub fn slice(&self) -> &[T] {
        &self.items[GUARD..self.items.len() - GUARD]
    }

    pub fn slice_mut(&mut self) -> &mut [T] {
        let end = self.items.len() - GUARD;
        &mut self.items[GUARD..end]
    }

    pub fn intact(&self) -> bool {
        let behind = self.items.len() - GUARD;
        (0..GUARD).all(|place| {
            self.items[place] == T::guard(place) && self.items[behind + place] == T::guard(place)
        })
    }
}
