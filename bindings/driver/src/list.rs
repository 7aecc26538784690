//! Lists with guard words around them.

use crate::subjects::Part;
use std::ops::{Deref, DerefMut};
use std::sync::atomic::{AtomicBool, Ordering};

/// Guard words before and after each list.
const GUARDS: usize = 16;

static BARE: AtomicBool = AtomicBool::new(false);

/// From now on lists are allocated alone, so that a memory checker sees a read or write past either end.
pub fn leave_out_guards() {
    BARE.store(true, Ordering::Relaxed);
}

pub trait Item: Copy + Default + PartialEq {
    const GUARD: Self;
    fn bits(self) -> u64;
    fn is_nan(self) -> bool;
    /// As it is written out.
    fn shown(self) -> String;
    /// A list of such items as a part of a call.
    fn part(list: &List<Self>) -> Part<'_>;
}

impl Item for u8 {
    const GUARD: u8 = 0xa5;
    fn bits(self) -> u64 {
        self as u64
    }
    fn is_nan(self) -> bool {
        false
    }
    fn shown(self) -> String {
        self.to_string()
    }
    fn part(list: &List<u8>) -> Part<'_> {
        Part::Bytes(list)
    }
}

impl Item for u32 {
    const GUARD: u32 = 0xa5c3_96e1;
    fn bits(self) -> u64 {
        self as u64
    }
    fn is_nan(self) -> bool {
        false
    }
    fn shown(self) -> String {
        self.to_string()
    }
    fn part(list: &List<u32>) -> Part<'_> {
        Part::Words(list)
    }
}

impl Item for i64 {
    const GUARD: i64 = 0x25c3_96e1_a55a_3c0f;
    fn bits(self) -> u64 {
        self as u64
    }
    fn is_nan(self) -> bool {
        false
    }
    fn shown(self) -> String {
        self.to_string()
    }
    fn part(list: &List<i64>) -> Part<'_> {
        Part::Wholes(list)
    }
}

impl Item for f64 {
    const GUARD: f64 = f64::from_bits(0x25c3_96e1_a55a_3c0f);
    fn bits(self) -> u64 {
        self.to_bits()
    }
    fn is_nan(self) -> bool {
        f64::is_nan(self)
    }
    fn shown(self) -> String {
        format!("{:016x}", self.to_bits())
    }
    fn part(list: &List<f64>) -> Part<'_> {
        Part::Floats(list)
    }
}

#[derive(Clone, Default)]
pub struct List<T> {
    all: Vec<T>,
    guards: usize,
}

impl<T: Item> List<T> {
    pub fn new(items: &[T]) -> Self {
        Self::made(items.len(), |at| items[at])
    }

    pub fn made(length: usize, mut item: impl FnMut(usize) -> T) -> Self {
        let guards = if BARE.load(Ordering::Relaxed) { 0 } else { GUARDS };
        let mut all = Vec::with_capacity(length + 2 * guards);
        all.resize(guards, T::GUARD);
        all.extend((0..length).map(&mut item));
        all.resize(length + 2 * guards, T::GUARD);
        List { all, guards }
    }

    pub fn pointer(&self) -> *const T {
        self.all[self.guards..].as_ptr()
    }

    /// A pointer to the first item, with the guards in its reach.
    pub fn pointer_mut(&mut self) -> *mut T {
        self.all.as_mut_ptr().wrapping_add(self.guards)
    }

    /// Changes the items and their number.
    pub fn edit(&mut self, change: impl FnOnce(&mut Vec<T>)) {
        let mut items = self.to_vec();
        change(&mut items);
        *self = Self::new(&items);
    }

    pub fn guards_hold(&self) -> bool {
        let end = self.all.len() - self.guards;
        self.all[..self.guards].iter().chain(&self.all[end..]).all(|x| x.bits() == T::GUARD.bits())
    }

    /// The first place where the lists differ; below `filled` all NaNs are equal.
    pub fn difference(&self, other: &Self, filled: usize) -> Option<usize> {
        if self.len() != other.len() {
            return Some(self.len().min(other.len()));
        }
        let same = |at: usize, a: T, b: T| a.bits() == b.bits() || (at < filled && a.is_nan() && b.is_nan());
        self.iter().zip(other.iter()).enumerate().position(|(at, (&a, &b))| !same(at, a, b))
    }
}

impl<T: Item> Deref for List<T> {
    type Target = [T];
    fn deref(&self) -> &[T] {
        &self.all[self.guards..self.all.len() - self.guards]
    }
}

impl<T: Item> DerefMut for List<T> {
    fn deref_mut(&mut self) -> &mut [T] {
        let end = self.all.len() - self.guards;
        &mut self.all[self.guards..end]
    }
}
