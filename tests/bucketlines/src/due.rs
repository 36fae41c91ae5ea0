//! What the program is to print for a list: the number of the plain model, and the lines of the
//! archive's answer.

use crate::lines;
use lists::call_list::{call_byte, DISCARD, PLACE, RELEASE};
use lists::model::{verdict, SUMS};

/// The longest list that is read, and the length of the output.
pub const LONGEST: usize = 32_768;
pub const OUTPUT: usize = 65_536;

/// The call that a list's call byte names, in its one field 1, wherever that stands; a list that names
/// none, or has not one field 1, is refused 2 by each.
pub fn call_of(list: &[u8]) -> u8 {
    call_byte(list)
}

/// The number of any list.
pub fn number(list: &[u8]) -> u32 {
    if list.len() > LONGEST {
        return 3;
    }
    match call_of(list) {
        call @ PLACE..=DISCARD => verdict(call, list, SUMS, OUTPUT),
        _ => 2,
    }
}

/// The lines of any list.
pub fn lines(list: &[u8]) -> String {
    match number(list) {
        0 => lines::accepted(&answer(list)),
        number => lines::refused(number),
    }
}

/// The archive's answer to a list that is accepted.
pub fn answer(list: &[u8]) -> Vec<u8> {
    let mut out = vec![0; OUTPUT];
    let length = match call_of(list) {
        PLACE => zerglaz::place(list, &mut out),
        RELEASE => zerglaz::release(list, &mut vec![0; SUMS], &mut out),
        _ => zerglaz::discard(list, &mut out),
    };
    out.truncate(length.expect("the model accepts the list"));
    out
}
