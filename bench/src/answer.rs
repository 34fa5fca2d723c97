//! The four numbers of an answer, packed in one as the library does: bits 0 to 15 are the refusal, 16 to 31 the verdict,
//! 32 to 39 the issuer and 40 to 47 the role through which a yes was given. Without a yes these two are 255.

const NO_ROLE: u8 = 255;

/// The answer to an accepted call that isn't a yes.
pub const ACCEPTED: u64 = refused(0);

/// An answer with a refusal.
pub const fn refused(refusal: u16) -> u64 {
    packed(refusal, 0, NO_ROLE, NO_ROLE)
}

/// A yes, through a role of an issuer.
pub const fn yes(issuer: u8, role: u8) -> u64 {
    packed(0, 1, issuer, role)
}

const fn packed(refusal: u16, verdict: u16, issuer: u8, role: u8) -> u64 {
    refusal as u64 | (verdict as u64) << 16 | (issuer as u64) << 32 | (role as u64) << 40
}

pub fn refusal(answer: u64) -> u16 {
    answer as u16
}

pub fn verdict(answer: u64) -> u16 {
    (answer >> 16) as u16
}

/// The issuer and the role of a yes; 255 and 255 without one.
pub fn through(answer: u64) -> (u8, u8) {
    ((answer >> 32) as u8, (answer >> 40) as u8)
}
