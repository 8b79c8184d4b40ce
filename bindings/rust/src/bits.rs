//! Sets of named bits, with the methods and operators that the crate `bitflags`
//! has made usual.

use core::fmt;

/// Defines a set of named bits, each name behind a prefix in the C header. Two of
/// the bits stand in the examples.
macro_rules! bits {
    (
        $(#[$about:meta])*
        $Set:ident, $prefix:literal, $One:ident, $Two:ident {
            $($(#[$about_bit:meta])* $BIT:ident = $value:literal,)*
        }
    ) => {
        $(#[$about])*
        #[derive(Clone, Copy, Default, PartialEq, Eq, Hash)]
        pub struct $Set(u64);

        impl $Set {
            $($(#[$about_bit])* pub const $BIT: $Set = $Set($value);)*

            /// All named bits with their full names.
            ///
            /// ```
            #[doc = bits!(@example $Set $One $Two)]
            /// assert!(Set::NAMED.contains(&(one.to_string().as_str(), one)));
            /// ```
            pub const NAMED: &'static [(&'static str, $Set)] =
                &[$((concat!($prefix, stringify!($BIT)), $Set::$BIT),)*];

            /// No bits.
            ///
            /// ```
            #[doc = bits!(@example $Set $One $Two)]
            /// assert_eq!(Set::empty() | one, one);
            /// ```
            pub const fn empty() -> Self {
                $Set(0)
            }

            /// All bits that have a name.
            ///
            /// ```
            #[doc = bits!(@example $Set $One $Two)]
            /// assert!(Set::all().contains(one | two));
            /// ```
            pub const fn all() -> Self {
                $Set(0 $(| $value)*)
            }

            /// The bits as a number.
            ///
            /// ```
            #[doc = bits!(@example $Set $One $Two)]
            /// assert_eq!((one | two).bits(), one.bits() + two.bits());
            /// ```
            pub const fn bits(self) -> u64 {
                self.0
            }

            /// These bits; none if one of them has no name.
            ///
            /// ```
            #[doc = bits!(@example $Set $One $Two)]
            /// assert_eq!(Set::from_bits(one.bits()), Some(one));
            /// assert_eq!(Set::from_bits(one.bits() | 1 << 63), None);
            /// ```
            pub const fn from_bits(bits: u64) -> Option<Self> {
                if bits & !Self::all().0 == 0 { Some($Set(bits)) } else { None }
            }

            /// These bits, with or without a name: it is the library that refuses
            /// those it does not know.
            ///
            /// ```
            #[doc = bits!(@example $Set $One $Two)]
            /// assert_eq!(Set::from_bits_retain(1 << 63).bits(), 1 << 63);
            /// ```
            pub const fn from_bits_retain(bits: u64) -> Self {
                $Set(bits)
            }

            /// Those of these bits that have a name.
            ///
            /// ```
            #[doc = bits!(@example $Set $One $Two)]
            /// assert_eq!(Set::from_bits_truncate(one.bits() | 1 << 63), one);
            /// ```
            pub const fn from_bits_truncate(bits: u64) -> Self {
                $Set(bits & Self::all().0)
            }

            /// The bit of this name, with or without its prefix.
            ///
            /// ```
            #[doc = bits!(@example $Set $One $Two)]
            /// assert_eq!(Set::from_name(&two.to_string()), Some(two));
            /// assert_eq!(Set::from_name("NO_SUCH_NAME"), None);
            /// ```
            pub fn from_name(name: &str) -> Option<Self> {
                let bare = name.strip_prefix($prefix).unwrap_or(name);
                let is_named = |(full, _): &&(&str, Self)| full.strip_prefix($prefix) == Some(bare);
                Self::NAMED.iter().find(is_named).map(|&(_, bit)| bit)
            }

            /// Whether there are no bits in it.
            ///
            /// ```
            #[doc = bits!(@example $Set $One $Two)]
            /// assert!((one & two).is_empty());
            /// ```
            pub const fn is_empty(self) -> bool {
                self.0 == 0
            }

            /// Whether all bits of `other` are in it.
            ///
            /// ```
            #[doc = bits!(@example $Set $One $Two)]
            /// assert!((one | two).contains(two));
            /// assert!(!one.contains(one | two));
            /// ```
            pub const fn contains(self, other: Self) -> bool {
                self.0 & other.0 == other.0
            }

            /// Whether some bit of `other` is in it.
            ///
            /// ```
            #[doc = bits!(@example $Set $One $Two)]
            /// assert!(one.intersects(one | two));
            /// assert!(!one.intersects(two));
            /// ```
            pub const fn intersects(self, other: Self) -> bool {
                self.0 & other.0 != 0
            }

            /// The bits of either; `|`, for constants.
            ///
            /// ```
            #[doc = bits!(@example $Set $One $Two)]
            /// const ALL: Set = Set::empty().union(Set::all());
            /// assert_eq!(one.union(two) | ALL, ALL);
            /// ```
            pub const fn union(self, other: Self) -> Self {
                $Set(self.0 | other.0)
            }

            /// The bits of both; `&`, for constants.
            ///
            /// ```
            #[doc = bits!(@example $Set $One $Two)]
            /// assert_eq!(one.union(two).intersection(two), two);
            /// ```
            pub const fn intersection(self, other: Self) -> Self {
                $Set(self.0 & other.0)
            }

            /// The bits that are not in `other`; `-`, for constants.
            ///
            /// ```
            #[doc = bits!(@example $Set $One $Two)]
            /// assert_eq!(one.union(two).difference(two), one);
            /// ```
            pub const fn difference(self, other: Self) -> Self {
                $Set(self.0 & !other.0)
            }

            /// The bits of one alone; `^`, for constants.
            ///
            /// ```
            #[doc = bits!(@example $Set $One $Two)]
            /// assert_eq!(one.union(two).symmetric_difference(two), one);
            /// ```
            pub const fn symmetric_difference(self, other: Self) -> Self {
                $Set(self.0 ^ other.0)
            }

            /// The named bits that are not in it; `!`, for constants.
            ///
            /// ```
            #[doc = bits!(@example $Set $One $Two)]
            /// assert!(one.complement().contains(two));
            /// assert_eq!(one | !one, Set::all());
            /// ```
            pub const fn complement(self) -> Self {
                Self::all().difference(self)
            }

            /// The names of its bits, with the bits; what has no name is left out.
            ///
            /// ```
            #[doc = bits!(@example $Set $One $Two)]
            /// let named: Set = (one | two).iter_names().map(|(_, bit)| bit).collect();
            /// assert_eq!(named, one | two);
            /// ```
            pub fn iter_names(self) -> impl Iterator<Item = (&'static str, Self)> {
                Self::NAMED.iter().copied().filter(move |&(_, bit)| self.contains(bit))
            }
        }

        $crate::bits::operators! { $Set:
            BitOr bitor BitOrAssign bitor_assign union;
            BitAnd bitand BitAndAssign bitand_assign intersection;
            BitXor bitxor BitXorAssign bitxor_assign symmetric_difference;
            Sub sub SubAssign sub_assign difference;
        }

        /// The named bits that are not in it.
        impl core::ops::Not for $Set {
            type Output = Self;

            fn not(self) -> Self {
                self.complement()
            }
        }

        impl Extend<$Set> for $Set {
            fn extend<I: IntoIterator<Item = $Set>>(&mut self, sets: I) {
                sets.into_iter().for_each(|set| *self |= set);
            }
        }

        impl FromIterator<$Set> for $Set {
            fn from_iter<I: IntoIterator<Item = $Set>>(sets: I) -> Self {
                sets.into_iter().fold($Set::empty(), $Set::union)
            }
        }

        /// The names with bars between them, what has no name as a number.
        impl core::fmt::Display for $Set {
            fn fmt(&self, f: &mut core::fmt::Formatter) -> core::fmt::Result {
                let nameless = self.difference($Set::all()).bits();
                $crate::bits::write(f, self.iter_names().map(|(name, _)| name), nameless)
            }
        }

        impl core::fmt::Debug for $Set {
            fn fmt(&self, f: &mut core::fmt::Formatter) -> core::fmt::Result {
                write!(f, concat!(stringify!($Set), "({})"), self)
            }
        }

        $crate::bits::formats! { $Set: Binary Octal LowerHex UpperHex }

        /// Reads what `Display` writes: names with bars between them, each with or
        /// without its prefix, and numbers in hexadecimal behind `0x`, whose bits
        /// need no name.
        impl core::str::FromStr for $Set {
            type Err = $crate::ParseBitsError;

            fn from_str(text: &str) -> Result<Self, Self::Err> {
                let named = |name: &str| $Set::from_name(name).map($Set::bits);
                let names = concat!($($prefix, stringify!($BIT), " "),*);
                $crate::bits::parse(text, named).map($Set).ok_or($crate::ParseBitsError { names })
            }
        }
    };

    // What the examples begin with.
    (@example $Set:ident $One:ident $Two:ident) => {
        concat!(
            "use ventolaire::", stringify!($Set), " as Set;\n\n",
            "let (one, two) = (Set::", stringify!($One), ", Set::", stringify!($Two), ");"
        )
    };
}

/// Operators of a set by its methods.
macro_rules! operators {
    ($Set:ident: $($Op:ident $op:ident $OpAssign:ident $op_assign:ident $method:ident;)*) => {$(
        impl core::ops::$Op for $Set {
            type Output = Self;

            fn $op(self, other: Self) -> Self {
                self.$method(other)
            }
        }

        impl core::ops::$OpAssign for $Set {
            fn $op_assign(&mut self, other: Self) {
                *self = self.$method(other);
            }
        }
    )*};
}

/// A set in the formats of its number.
macro_rules! formats {
    ($Set:ident: $($Format:ident)*) => {$(
        impl core::fmt::$Format for $Set {
            fn fmt(&self, f: &mut core::fmt::Formatter) -> core::fmt::Result {
                core::fmt::$Format::fmt(&self.0, f)
            }
        }
    )*};
}

pub(crate) use {bits, formats, operators};

/// Writes a set: names, and the bits without one.
pub(crate) fn write(
    f: &mut fmt::Formatter,
    mut names: impl Iterator<Item = &'static str>,
    nameless: u64,
) -> fmt::Result {
    match (names.next(), nameless) {
        (None, 0) => return f.write_str("0"),
        (None, _) => return write!(f, "{nameless:#x}"),
        (Some(first), _) => f.write_str(first)?,
    }
    names.try_for_each(|name| write!(f, " | {name}"))?;
    match nameless {
        0 => Ok(()),
        _ => write!(f, " | {nameless:#x}"),
    }
}

/// Reads what [`write`] writes.
pub(crate) fn parse(text: &str, named: impl Fn(&str) -> Option<u64>) -> Option<u64> {
    let number = |part: &str| match part.strip_prefix("0x") {
        Some(digits) if digits.starts_with('+') => None,
        Some(digits) => u64::from_str_radix(digits, 16).ok(),
        None => (part == "0").then_some(0),
    };
    if text.trim().is_empty() {
        return Some(0);
    }
    text.split('|').map(str::trim).try_fold(0, |bits, part| {
        let read = named(part).or_else(|| number(part))?;
        Some(bits | read)
    })
}

/// A text that names no set of bits.
///
/// ```
/// use ventolaire::Flags;
///
/// let error = "O_BELOW".parse::<Flags>().unwrap_err();
/// assert_eq!(
///     error.to_string(),
///     "a name is not one of O_DIRECTORY O_NOFOLLOW O_CLOEXEC O_PATH, nor a number such as 0x8"
/// );
/// ```
#[derive(Clone, Copy, Debug, PartialEq, Eq, Hash)]
#[non_exhaustive]
pub struct ParseBitsError {
    /// The names there are, a blank behind each.
    pub(crate) names: &'static str,
}

impl fmt::Display for ParseBitsError {
    fn fmt(&self, f: &mut fmt::Formatter) -> fmt::Result {
        let names = self.names.trim_end();
        write!(f, "a name is not one of {names}, nor a number such as 0x8")
    }
}

impl core::error::Error for ParseBitsError {}
