//! Room for a destination, as long as a call asks for.

use crate::{Cause, Refused};

/// No destination is ever longer: over so many samples are refused whatever the room.
const MOST: u64 = 4_294_967_294;

/// Room for what a call asked for that was given none. Where memory lacks, its refusal stands.
pub(crate) fn room<T: Clone + Default>(asked: Result<usize, Refused>) -> Result<Vec<T>, Refused> {
    let Err(refused) = asked else {
        return Ok(Vec::new());
    };
    if refused.cause != Cause::DestinationTooShort || refused.place > MOST {
        return Err(refused);
    }
    let needed = usize::try_from(refused.place).map_err(|_| refused)?;
    zeros(needed).ok_or(refused)
}

/// A list of so many elements; none where memory lacks.
fn zeros<T: Clone + Default>(length: usize) -> Option<Vec<T>> {
    let mut list = Vec::new();
    list.try_reserve_exact(length).ok()?;
    list.resize(length, T::default());
    Some(list)
}

#[cfg(test)]
mod tests {
    use super::*;

    #[test]
    fn room_is_made_for_what_is_needed_and_no_more() {
        let asked = |number, place| Err(Refused::new(number, place));
        assert_eq!(room::<i32>(Ok(3)), Ok(vec![]));
        assert_eq!(room::<i32>(asked(30, 3)), Ok(vec![0; 3]));
        assert_eq!(room::<i32>(asked(29, 0)), Err(Refused::new(29, 0)));
        assert_eq!(
            room::<i32>(asked(30, 1 << 32)),
            Err(Refused::new(30, 1 << 32))
        );
    }

    #[test]
    fn memory_that_is_not_there_makes_no_list() {
        assert_eq!(zeros::<i32>(3), Some(vec![0; 3]));
        assert_eq!(zeros::<i32>(usize::MAX), None);
    }
}
