//! Stand-in for the crate num_traits: casts between unsigned numbers, and their largest value.

pub trait ToPrimitive {
    fn to_u64(&self) -> u64;
}

pub trait NumCast: Sized + ToPrimitive {
    /// The same number in this type; none if it does not fit.
    fn from<T: ToPrimitive>(number: T) -> Option<Self>;
}

pub trait PrimInt: Copy + Ord + NumCast {
    fn max_value() -> Self;
}

pub trait Unsigned {}

pub trait AsPrimitive<T> {
    /// The `as` cast.
    fn as_(self) -> T;
}

pub fn cast<T: ToPrimitive, U: NumCast>(number: T) -> Option<U> {
    U::from(number)
}

macro_rules! unsigned {
    ($($t:ty)*) => {$(
        impl ToPrimitive for $t {
            fn to_u64(&self) -> u64 {
                *self as u64
            }
        }
        impl NumCast for $t {
            fn from<T: ToPrimitive>(number: T) -> Option<Self> {
                number.to_u64().try_into().ok()
            }
        }
        impl PrimInt for $t {
            fn max_value() -> Self {
                <$t>::MAX
            }
        }
        impl Unsigned for $t {}
        impl AsPrimitive<$t> for usize {
            fn as_(self) -> $t {
                self as $t
            }
        }
    )*};
}

unsigned!(u8 u16 u32 u64 usize);
