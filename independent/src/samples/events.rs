//! Events by their first and last byte, and small bodies to grant.

use super::bodies::{Layout4Head, LayoutPlan, ServerPlan};
use crate::event::{Event, RangeNumbers};
use crate::range::LAST_BYTE;

/// An accepted body of 80 to 140 bytes, another one for each number.
pub fn small_body(number: u32) -> Vec<u8> {
    let plan = match number % 5 {
        0 => LayoutPlan::plain(1, 2),
        1 => LayoutPlan::plain(2, 1),
        _ => {
            let owner = number as usize % 4;
            let server = ServerPlan::sized(number as u8, &[1 + number as usize % 24], owner, owner);
            LayoutPlan::of_server(server)
        }
    };
    LayoutPlan { flags: number % 16, hint: number, ..plan }.encode().bytes
}

/// The length that reaches from the first to the last byte.
pub fn length_between(first: u64, last: u64) -> u64 {
    if last == LAST_BYTE {
        u64::MAX
    } else {
        last - first + 1
    }
}

fn numbers(iomode: u32, first: u64, last: u64) -> RangeNumbers {
    RangeNumbers { offset: first, length: length_between(first, last), iomode }
}

pub fn grant(iomode: u32, first: u64, last: u64, body: &[u8]) -> Event {
    let length = length_between(first, last);
    let head = Layout4Head { offset: first, length, iomode, layout_type: 4 };
    Event::Grant(head.around(body))
}

pub fn layout_return(iomode: u32, first: u64, last: u64) -> Event {
    Event::Return(numbers(iomode, first, last))
}

pub fn recall(iomode: u32, first: u64, last: u64) -> Event {
    Event::Recall(numbers(iomode, first, last))
}

#[cfg(test)]
mod tests {
    use super::*;
    use crate::layout::read_layout_body;
    use std::collections::HashSet;

    #[test]
    fn small_bodies_are_accepted_small_and_different() {
        let bodies: HashSet<Vec<u8>> = (0..300).map(small_body).collect();
        assert_eq!(bodies.len(), 300);
        for body in bodies {
            assert!(read_layout_body(&body).is_ok());
            assert!((80..=140).contains(&body.len()), "{} bytes", body.len());
        }
    }
}
