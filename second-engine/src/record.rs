//! "The call record": bytes to calls, and back for the driver.

/// "The portal's operator is caller 16."
pub const OPERATOR: usize = 16;

/// "Kinds 22 and 23" are the last ones.
pub const KINDS: usize = 23;

/// "one of twenty-one calls, each with its own arguments", and kinds 22 and 23.
#[derive(Clone, Copy, Debug, PartialEq, Eq)]
#[rustfmt::skip]
pub enum Call {
    Enrol { issuer: usize },
    Strike { issuer: usize },
    GiveTrust { trustee: usize },
    WithdrawTrust { trustee: usize },
    AddUser { user: usize },
    RemoveUser { user: usize },
    AddRole { role: usize },
    RemoveRole { role: usize },
    AddPermission { permission: usize },
    RemovePermission { permission: usize },
    GiveRole { user: usize, role: usize },
    TakeRole { user: usize, role: usize },
    Grant { permission: usize, issuer: usize, role: usize },
    Ungrant { permission: usize, issuer: usize, role: usize },
    /// The caller's own role `junior` below the role `senior` of `issuer`.
    Attach { junior: usize, issuer: usize, senior: usize },
    Detach { junior: usize, issuer: usize, senior: usize },
    OpenSession { session: usize, user: usize },
    CloseSession { session: usize },
    Activate { session: usize, role: usize },
    Deactivate { session: usize, role: usize },
    MayUse { permission: usize, issuer: usize, session: usize },
    PublishRole { role: usize },
    UnpublishRole { role: usize },
}

#[derive(Clone, Debug, PartialEq, Eq)]
pub struct Decoded {
    pub kind: usize,
    pub caller: usize,
    pub arguments: Vec<usize>,
    pub call: Call,
}

/// What a record is.
#[derive(Clone, Debug, PartialEq, Eq)]
pub enum Record {
    /// "A press with nothing to report hands in a record of zero bytes."
    SignOfLife,
    Call(Decoded),
    /// Refusal 3's row applies.
    Undecodable,
}

pub fn decode(record: &[u8]) -> Record {
    if record.is_empty() {
        return Record::SignOfLife;
    }
    match decode_call(record) {
        Some(decoded) => Record::Call(decoded),
        None => Record::Undecodable,
    }
}

/// `None` where refusal 3's row applies, and for the sign of life, which is no call.
pub fn decode_call(record: &[u8]) -> Option<Decoded> {
    // "under 5 bytes becomes 1 to 4 bytes"
    if record.len() < 5 {
        return None;
    }
    // "length field wrong": it counts "the whole record", 2 bytes little-endian.
    let length = u16::from_le_bytes([record[0], record[1]]);
    if usize::from(length) != record.len() {
        return None;
    }
    // "Then the kind, 2 bytes little-endian, the caller, 1 byte, and the arguments, 1 byte each."
    let kind = usize::from(u16::from_le_bytes([record[2], record[3]]));
    let caller = usize::from(record[4]);
    let arguments: Vec<usize> = record[5..].iter().map(|&byte| usize::from(byte)).collect();
    #[rustfmt::skip]
    let call = match (kind, arguments.as_slice()) {
        (1, &[issuer]) => Call::Enrol { issuer },
        (2, &[issuer]) => Call::Strike { issuer },
        (3, &[trustee]) => Call::GiveTrust { trustee },
        (4, &[trustee]) => Call::WithdrawTrust { trustee },
        (5, &[user]) => Call::AddUser { user },
        (6, &[user]) => Call::RemoveUser { user },
        (7, &[role]) => Call::AddRole { role },
        (8, &[role]) => Call::RemoveRole { role },
        (9, &[permission]) => Call::AddPermission { permission },
        (10, &[permission]) => Call::RemovePermission { permission },
        (11, &[user, role]) => Call::GiveRole { user, role },
        (12, &[user, role]) => Call::TakeRole { user, role },
        (13, &[permission, issuer, role]) => Call::Grant { permission, issuer, role },
        (14, &[permission, issuer, role]) => Call::Ungrant { permission, issuer, role },
        (15, &[junior, issuer, senior]) => Call::Attach { junior, issuer, senior },
        (16, &[junior, issuer, senior]) => Call::Detach { junior, issuer, senior },
        (17, &[session, user]) => Call::OpenSession { session, user },
        (18, &[session]) => Call::CloseSession { session },
        (19, &[session, role]) => Call::Activate { session, role },
        (20, &[session, role]) => Call::Deactivate { session, role },
        (21, &[permission, issuer, session]) => Call::MayUse { permission, issuer, session },
        (22, &[role]) => Call::PublishRole { role },
        (23, &[role]) => Call::UnpublishRole { role },
        // "kind unknown, or length wrong for the kind"
        _ => return None,
    };
    Some(Decoded {
        kind,
        caller,
        arguments,
        call,
    })
}

/// The record with this kind, caller and arguments, its length field right.
pub fn encode(kind: usize, caller: usize, arguments: &[usize]) -> Vec<u8> {
    let byte = |number: usize| u8::try_from(number).expect("one byte");
    let length = u16::try_from(5 + arguments.len()).expect("a short record");
    let kind = u16::try_from(kind).expect("two bytes");
    let mut record = Vec::from(length.to_le_bytes());
    record.extend(kind.to_le_bytes());
    record.push(byte(caller));
    record.extend(arguments.iter().map(|&argument| byte(argument)));
    record
}
