//! What a call answers: 0 and a length, or the number of a refusal.

/// The answer of every call that writes into a buffer.
#[repr(C)]
#[derive(Clone, Copy, Debug, PartialEq, Eq)]
pub struct Answer {
    /// 0 accepted, else the refusal's number.
    pub number: u32,
    /// Of the new store or text; 0 on a refusal.
    pub length: usize,
}

/// The rows of paper 01's table of refusals, by their words.
#[derive(Clone, Copy, Debug, PartialEq, Eq)]
#[repr(u32)]
pub enum Refusal {
    BadStore = 1,
    BadName = 2,
    BadValue = 3,
    BadCode = 4,
    Taken = 5,
    Unknown = 6,
    NoRow = 7,
    NoPlace = 8,
    WrongKind = 9,
    InUse = 10,
    Round = 11,
    Default = 12,
    OffSpine = 13,
    Grouping = 14,
    NoMatch = 15,
    Ceiling = 16,
    Serials = 17,
    Buffer = 18,
    /// Of paper 02; it stands before 18.
    BadText = 19,
}

/// Refuses where the condition holds. The changes ask their conditions in the
/// order of the table, so the first one that refuses has the lowest number.
pub fn refuse_if(condition: bool, refusal: Refusal) -> Result<(), Refusal> {
    if condition {
        Err(refusal)
    } else {
        Ok(())
    }
}

/// Writes what a call leaves; 18 where the buffer is too short for it.
pub fn write(content: &[u8], out: &mut [u8]) -> Result<usize, Refusal> {
    let room = out.get_mut(..content.len()).ok_or(Refusal::Buffer)?;
    room.copy_from_slice(content);
    Ok(content.len())
}

impl From<Result<usize, Refusal>> for Answer {
    fn from(result: Result<usize, Refusal>) -> Answer {
        match result {
            Ok(length) => Answer { number: 0, length },
            Err(refusal) => Answer {
                number: refusal as u32,
                length: 0,
            },
        }
    }
}
