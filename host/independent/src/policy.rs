//! policy.rs: the flag byte of a handle, the three policies, and the templates
//! each policy grants.

pub const WRAP: u8 = 1;
pub const UNWRAP: u8 = 2;
pub const ENCRYPT: u8 = 4;
pub const DECRYPT: u8 = 8;
pub const EXTRACTABLE: u8 = 16;
pub const WRAP_WITH_TRUSTED_ONLY: u8 = 32;
pub const TRUSTED: u8 = 64;
/// The value that must be absent from every flag byte.
pub const ABSENT: u8 = 128;

#[derive(Clone, Copy, PartialEq, Eq, Debug)]
pub enum Policy {
    Plain,
    Stp,
    StpPlus,
}

impl Policy {
    pub const ALL: [Policy; 3] = [Policy::Plain, Policy::Stp, Policy::StpPlus];

    /// The policy a sheet's byte 0 names; none above 2.
    pub fn from_byte(byte: u8) -> Option<Policy> {
        Policy::ALL.get(usize::from(byte)).copied()
    }

    pub fn byte(self) -> u8 {
        match self {
            Policy::Plain => 0,
            Policy::Stp => 1,
            Policy::StpPlus => 2,
        }
    }

    /// As `rounds` prints it.
    pub fn name(self) -> &'static str {
        match self {
            Policy::Plain => "plain",
            Policy::Stp => "stp",
            Policy::StpPlus => "stp+",
        }
    }

    pub fn grants_generate(self, flags: u8) -> bool {
        match self {
            Policy::Plain => flags <= 127,
            Policy::Stp => matches!(flags, 12 | 28 | 3 | 19),
            Policy::StpPlus => matches!(flags, 67 | 51 | 28),
        }
    }

    pub fn grants_unwrap(self, flags: u8) -> bool {
        match self {
            Policy::Plain => flags <= 127,
            Policy::Stp => flags == 22,
            Policy::StpPlus => flags == 54,
        }
    }
}
