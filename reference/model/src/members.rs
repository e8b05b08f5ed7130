//! Sets of members, one bit a member, and what a group's description says by
//! them.

/// Members 0 to n-1, of an n up to 16.
pub fn all(n: u8) -> u16 {
    ((1u32 << n) - 1) as u16
}

/// One member, below 16.
pub fn only(member: u8) -> u16 {
    1 << member
}

/// Whether a member is in a set; one over 15 is in none.
pub fn has(set: u16, member: u32) -> bool {
    u32::from(set).checked_shr(member).unwrap_or(0) & 1 == 1
}

/// Whether the survivors are among n members, 1 to 16, and have the elected
/// one among them.
pub(crate) fn stand(n: u8, survivors: u16, elected: u8) -> bool {
    survivors & !all(n) == 0 && has(survivors, elected.into())
}

/// Who answers an offer: the r lowest survivors other than the elected one,
/// or all of them if they are fewer. As many answers are needed.
pub(crate) fn expected(survivors: u16, elected: u8, resilience: u8) -> u16 {
    let others = survivors & !only(elected);
    // Each round takes the lowest away; what is left is not expected.
    let rest = (0..resilience).fold(others, |rest, _| rest & rest.wrapping_sub(1));
    others & !rest
}
