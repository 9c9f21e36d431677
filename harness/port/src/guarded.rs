//! A list of bytes or words whose middle part is lent, with guards before and after it and a copy of all as it
//! was.
use std::ops::Range;

/// Guards on each side; the shift of a turn is added before.
const GUARD: usize = 64;
/// The pattern begins again after so many, a prime number.
const REPEATS: usize = 4_093;

/// What a list can be of.
pub trait Item: Copy + PartialEq {
    /// One of the pattern, by its place in it.
    fn at(place: usize) -> Self;

    /// The same with its lowest bit flipped.
    fn flipped(self) -> Self;
}

impl Item for u8 {
    fn at(place: usize) -> Self {
        (place.wrapping_mul(0x9E37_79B9) >> 13) as u8
    }

    fn flipped(self) -> Self {
        self ^ 1
    }
}

impl Item for u64 {
    /// A multiple of an odd number, so that no two places have the same.
    fn at(place: usize) -> Self {
        (place as u64 + 1).wrapping_mul(0x9E37_79B9_7F4A_7C15)
    }

    fn flipped(self) -> Self {
        self ^ 1
    }
}

pub struct Guarded<T> {
    items: Vec<T>,
    before: Vec<T>,
    from: usize,
    length: usize,
}

impl<T: Item> Guarded<T> {
    /// Lends a copy of these, with a pattern around them. The turn also decides how the lent part
    /// lies to a multiple of 8.
    pub fn holding(content: &[T], turn: usize) -> Self {
        let from = GUARD + turn % 8;
        let items = [
            &pattern(from, turn)[..],
            content,
            &pattern(GUARD, turn + 1)[..],
        ]
        .concat();
        Guarded {
            before: items.clone(),
            items,
            from,
            length: content.len(),
        }
    }

    /// Lends so many with a pattern in them too.
    pub fn empty(length: usize, turn: usize) -> Self {
        Guarded::holding(&pattern(length, turn + 2), turn)
    }

    pub fn lent(&self) -> &[T] {
        &self.items[self.from..][..self.length]
    }

    pub fn lent_mut(&mut self) -> &mut [T] {
        &mut self.items[self.from..][..self.length]
    }

    /// The first place that changed outside this part of what is lent, counted from its start.
    pub fn changed(&self, may_change: Range<usize>) -> Option<isize> {
        let may = self.from + may_change.start..self.from + may_change.end;
        let changed = |range: Range<usize>| {
            let start = range.start;
            let (now, then) = (&self.items[range.clone()], &self.before[range]);
            // all at once first, which is quicker
            if now == then {
                return None;
            }
            let mut both = now.iter().zip(then);
            both.position(|(now, then)| now != then)
                .map(|n| (start + n) as isize - self.from as isize)
        };
        changed(0..may.start).or_else(|| changed(may.end..self.items.len()))
    }

    /// Flips a bit at a place counted from the start of what is lent.
    pub fn spoil(&mut self, place: isize) {
        let item = &mut self.items[(self.from as isize + place) as usize];
        *item = item.flipped();
    }
}

/// So many without short repeats, so that neither zeros nor answers written by mistake look like
/// them.
fn pattern<T: Item>(length: usize, turn: usize) -> Vec<T> {
    let item = |place: usize| T::at(place + 131 * turn);
    let mut items = Vec::with_capacity(length);
    items.extend((0..length.min(REPEATS)).map(item));
    while items.len() < length {
        let more = (length - items.len()).min(REPEATS);
        items.extend_from_within(..more);
    }
    items
}
