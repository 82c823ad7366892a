//! Sets of events (or of rules) as the bits of one number.

pub type Set = u16;

/// The set of one member. Members are 0 to 15.
pub fn one(member: u8) -> Set {
    1 << member
}

pub fn has(set: Set, member: u8) -> bool {
    set & one(member) != 0
}

pub fn within(inner: Set, outer: Set) -> bool {
    inner & !outer == 0
}

pub fn lowest(set: Set) -> Option<u8> {
    (set != 0).then(|| set.trailing_zeros() as u8)
}

/// The members, lowest first.
pub fn members(mut set: Set) -> impl Iterator<Item = u8> {
    std::iter::from_fn(move || {
        let member = lowest(set)?;
        set &= set - 1;
        Some(member)
    })
}
