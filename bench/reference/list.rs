//! A list of elements in order of arrival, in a fixed number of places.

use std::ops::{Deref, DerefMut};

pub struct List<T, const PLACES: usize> {
    places: [T; PLACES],
    count: usize,
}

impl<T: Copy, const PLACES: usize> List<T, PLACES> {
    /// An empty list; its places hold `filler` until they are used.
    pub fn new(filler: T) -> Self {
        List {
            places: [filler; PLACES],
            count: 0,
        }
    }

    pub fn is_full(&self) -> bool {
        self.count == PLACES
    }

    /// Adds an element at the end. The caller has asked whether a place is left.
    pub fn push(&mut self, element: T) {
        self.places[self.count] = element;
        self.count += 1;
    }

    /// Takes out the element at a place; the later ones move down by one.
    pub fn remove(&mut self, place: usize) {
        self.places.copy_within(place + 1..self.count, place);
        self.count -= 1;
    }
}

/// A list is read and changed as the slice of its elements.
impl<T, const PLACES: usize> Deref for List<T, PLACES> {
    type Target = [T];

    fn deref(&self) -> &[T] {
        &self.places[..self.count]
    }
}

impl<T, const PLACES: usize> DerefMut for List<T, PLACES> {
    fn deref_mut(&mut self) -> &mut [T] {
        &mut self.places[..self.count]
    }
}
