//! The reasons for which a call is refused.

#[derive(Clone, Copy, Debug, PartialEq, Eq)]
pub enum Refusal {
    BadSize,
    BadTable,
    LayoutFull,
    BadBuffer,
    Shared,
    NoBuffer,
    OtherSize,
    BadRcon,
    Shut,
    UnderWay,
    NoArrival,
    NoFrame,
    Broken(u8),
    ShortBuffer,
    NotTaken,
    NoRegister,
    Outside(u32),
}

impl Refusal {
    pub fn number(self) -> u8 {
        match self {
            Refusal::BadSize => 1,
            Refusal::BadTable => 2,
            Refusal::LayoutFull => 3,
            Refusal::BadBuffer => 4,
            Refusal::Shared => 5,
            Refusal::NoBuffer => 6,
            Refusal::OtherSize => 7,
            Refusal::BadRcon => 8,
            Refusal::Shut => 9,
            Refusal::UnderWay => 10,
            Refusal::NoArrival => 11,
            Refusal::NoFrame => 12,
            Refusal::Broken(_) => 13,
            Refusal::ShortBuffer => 14,
            Refusal::NotTaken => 15,
            Refusal::NoRegister => 16,
            Refusal::Outside(_) => 17,
        }
    }

    /// The descriptor at fault, the address, or 0.
    pub fn place(self) -> u32 {
        match self {
            Refusal::Broken(descriptor) => descriptor.into(),
            Refusal::Outside(address) => address,
            _ => 0,
        }
    }
}
