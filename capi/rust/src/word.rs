//! Words with a type.
use std::fmt;
use std::marker::PhantomData;

/// What a word of 64 bits can have. The bits of a word that was never written are 0.
pub trait Value: Copy {
    /// As the word has it.
    fn into_bits(self) -> u64;
    /// Of what [`Value::into_bits`] gave, or 0.
    fn of_bits(bits: u64) -> Self;
}

macro_rules! integers {
    ($($of:ty)*) => {$(
        impl Value for $of {
            fn into_bits(self) -> u64 {
                self as u64
            }
            fn of_bits(bits: u64) -> Self {
                bits as $of
            }
        }
    )*};
}

integers! { u8 u16 u32 u64 usize i8 i16 i32 i64 isize }

impl Value for bool {
    fn into_bits(self) -> u64 {
        u64::from(self)
    }
    fn of_bits(bits: u64) -> Self {
        bits != 0
    }
}

impl Value for f64 {
    fn into_bits(self) -> u64 {
        self.to_bits()
    }
    fn of_bits(bits: u64) -> Self {
        f64::from_bits(bits)
    }
}

impl Value for f32 {
    fn into_bits(self) -> u64 {
        u64::from(self.to_bits())
    }
    fn of_bits(bits: u64) -> Self {
        f32::from_bits(bits as u32)
    }
}

/// The address of a word that has a `T`.
pub struct Word<T> {
    address: usize,
    of: PhantomData<fn() -> T>,
}

impl<T> Word<T> {
    /// The word at an address.
    pub const fn at(address: usize) -> Self {
        Word { address, of: PhantomData }
    }

    /// Its address.
    pub const fn address(self) -> usize {
        self.address
    }
}

impl<T> Clone for Word<T> {
    fn clone(&self) -> Self {
        *self
    }
}

impl<T> Copy for Word<T> {}

impl<T> fmt::Debug for Word<T> {
    fn fmt(&self, f: &mut fmt::Formatter<'_>) -> fmt::Result {
        write!(f, "word {}", self.address)
    }
}

/// As many words of one type, one after the other.
#[derive(Debug)]
pub struct Words<T> {
    first: Word<T>,
    count: usize,
}

impl<T> Clone for Words<T> {
    fn clone(&self) -> Self {
        *self
    }
}

impl<T> Copy for Words<T> {}

impl<T> Words<T> {
    /// How many they are.
    pub const fn len(&self) -> usize {
        self.count
    }

    /// Whether there is none.
    pub const fn is_empty(&self) -> bool {
        self.count == 0
    }

    /// The word at a place.
    ///
    /// # Panics
    /// Where there is no such place.
    pub fn at(&self, place: usize) -> Word<T> {
        assert!(place < self.count, "place {place} of {} words", self.count);
        Word::at(self.first.address + place)
    }

    /// Each of them.
    pub fn iter(self) -> impl Iterator<Item = Word<T>> {
        (0..self.count).map(move |place| self.at(place))
    }
}

/// Gives each of a memory's words its place.
#[derive(Clone, Copy, Debug, Default)]
pub struct Layout {
    next: usize,
}

impl Layout {
    /// Of no word yet.
    pub const fn new() -> Layout {
        Layout { next: 0 }
    }

    /// A word of its own.
    pub fn place<T: Value>(&mut self) -> Word<T> {
        self.array(1).at(0)
    }

    /// Words of their own.
    pub fn array<T: Value>(&mut self, count: usize) -> Words<T> {
        let first = Word::at(self.next);
        self.next += count;
        Words { first, count }
    }

    /// How many words the memory has to have.
    pub const fn words(&self) -> usize {
        self.next
    }
}
