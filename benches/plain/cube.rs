//! Boxes: products of five ranges, in the least types that hold their ends. A box of IPv4 takes 36
//! bytes, one of IPv6 96.

use crate::text;

/// A protocol, or a field, that isn't available.
pub const OPAQUE_PROTOCOL: u16 = 256;
pub const OPAQUE_FIELD: u32 = 65_536;

pub trait Number: Copy + Ord {
    const FIRST: Self;
    const LAST: Self;
    fn next(self) -> Self;
    fn previous(self) -> Self;
}

macro_rules! numbers {
    ($($number:ident)*) => {
        $(impl Number for $number {
            const FIRST: $number = $number::MIN;
            const LAST: $number = $number::MAX;
            fn next(self) -> $number {
                self + 1
            }
            fn previous(self) -> $number {
                self - 1
            }
        })*
    };
}

numbers!(u16 u32 u128);

pub trait Address: Number {
    const IS_SIX: bool;
    fn read(text: &[u8]) -> Option<Self>;
    fn put(self, text: &mut Vec<u8>);
    fn wide(self) -> u128;
    /// The address of a number that is one of its family.
    fn from_wide(number: u128) -> Self;
}

impl Address for u32 {
    const IS_SIX: bool = false;
    fn read(text: &[u8]) -> Option<u32> {
        text::address4(text)
    }
    fn put(self, text: &mut Vec<u8>) {
        text::put_address4(text, self);
    }
    fn wide(self) -> u128 {
        self.into()
    }
    fn from_wide(number: u128) -> u32 {
        number as u32
    }
}

impl Address for u128 {
    const IS_SIX: bool = true;
    fn read(text: &[u8]) -> Option<u128> {
        text::address6(text)
    }
    fn put(self, text: &mut Vec<u8>) {
        text::put_address6(text, self);
    }
    fn wide(self) -> u128 {
        self
    }
    fn from_wide(number: u128) -> u128 {
        number
    }
}

/// The numbers from `low` to `high`, both included.
#[derive(Clone, Copy, PartialEq)]
pub struct Range<N> {
    pub low: N,
    pub high: N,
}

impl<N: Number> Range<N> {
    pub fn new(low: N, high: N) -> Self {
        Range { low, high }
    }

    pub fn has(&self, number: N) -> bool {
        self.low <= number && number <= self.high
    }

    fn meets(&self, other: &Self) -> bool {
        self.low <= other.high && other.low <= self.high
    }

    /// Leaves what lies in another range that it meets, and gives what lies below and above.
    fn narrow(&mut self, other: &Self) -> [Option<Self>; 2] {
        let whole = *self;
        self.low = whole.low.max(other.low);
        self.high = whole.high.min(other.high);
        let below = || Range::new(whole.low, other.low.previous());
        let above = || Range::new(other.high.next(), whole.high);
        [
            (whole.low < other.low).then(below),
            (other.high < whole.high).then(above),
        ]
    }

    fn hull(&self, other: &Self) -> Self {
        Range::new(self.low.min(other.low), self.high.max(other.high))
    }
}

#[derive(Clone, Copy)]
pub struct Cube<A> {
    pub local: Range<A>,
    pub remote: Range<A>,
    pub protocol: Range<u16>,
    pub local_field: Range<u32>,
    pub remote_field: Range<u32>,
}

impl<A: Address> Cube<A> {
    pub fn whole() -> Self {
        let addresses = Range::new(A::FIRST, A::LAST);
        let fields = Range::new(0, OPAQUE_FIELD);
        Cube {
            local: addresses,
            remote: addresses,
            protocol: Range::new(0, OPAQUE_PROTOCOL),
            local_field: fields,
            remote_field: fields,
        }
    }

    pub fn meets(&self, other: &Self) -> bool {
        self.local.meets(&other.local)
            && self.remote.meets(&other.remote)
            && self.protocol.meets(&other.protocol)
            && self.local_field.meets(&other.local_field)
            && self.remote_field.meets(&other.remote_field)
    }

    pub fn hull(&self, other: &Self) -> Self {
        Cube {
            local: self.local.hull(&other.local),
            remote: self.remote.hull(&other.remote),
            protocol: self.protocol.hull(&other.protocol),
            local_field: self.local_field.hull(&other.local_field),
            remote_field: self.remote_field.hull(&other.remote_field),
        }
    }

    /// Puts what is left of the box without another one that meets it: by axis, what lies below
    /// and then what lies above.
    pub fn cut(&self, other: &Self, pieces: &mut Vec<Self>) {
        let mut rest = *self;
        macro_rules! cut_on {
            ($($axis:ident)*) => {
                $(for outside in rest.$axis.narrow(&other.$axis).into_iter().flatten() {
                    pieces.push(Cube { $axis: outside, ..rest });
                })*
            };
        }
        cut_on!(local remote protocol local_field remote_field);
    }

    /// Whether some packet, outbound or inbound, lies in the box.
    pub fn is_real(&self) -> bool {
        let (local, remote) = (&self.local_field, &self.remote_field);
        let has_some =
            |protocols: &[u16]| protocols.iter().any(|number| self.protocol.has(*number));
        let has_opaque = |field: &Range<u32>| field.high == OPAQUE_FIELD;
        let shows_one = |last: u32| {
            has_opaque(remote) && local.low <= last || has_opaque(local) && remote.low <= last
        };
        if has_opaque(local) && has_opaque(remote) {
            return A::IS_SIX || self.protocol.low < OPAQUE_PROTOCOL;
        }
        local.low < OPAQUE_FIELD && remote.low < OPAQUE_FIELD && has_some(&[6, 17, 33, 132, 136])
            || shows_one(65_535) && has_some(&[1, 58])
            || shows_one(255) && has_some(&[135])
    }
}
