//! Records whose numbers stand for no table, or for no sound one, are unsound, and come back as they were.

use basilothyn::raw::{self, EventResult, SegmentRecord, TableRecord};

/// 20 from each event and lookup, with record and store as they were.
fn is_unsound(table: TableRecord) {
    let mut store = vec![0; raw::STORE_LENGTH];
    let refused = EventResult { refusal: 20, table };
    assert_eq!(raw::revoke(table, &mut store), refused);
    assert_eq!(raw::grant(table, &mut store, &[]), refused);
    assert_eq!(raw::layout_return(table, &mut store, 0, 1, 3), refused);
    assert_eq!(raw::recall(table, &mut store, 0, 1, 3), refused);
    assert_eq!(raw::locate_write(table, &store, 0, 1).refusal, 20);
    assert_eq!(raw::locate_read(table, &store, 0, 1).refusal, 20);
    assert!(store.iter().all(|&byte| byte == 0));
}

/// The empty table with one entry of each iomode in turn.
fn with_place(place: usize, segment: SegmentRecord) -> [TableRecord; 2] {
    let (mut read, mut rw) = (raw::empty_table(), raw::empty_table());
    read.read[place] = segment;
    rw.rw[place] = segment;
    [read, rw]
}

#[test]
fn a_count_above_32_is_unsound() {
    for count in [33, 64, 1 << 32, u64::MAX] {
        let empty = raw::empty_table();
        is_unsound(TableRecord { read_count: count, ..empty });
        is_unsound(TableRecord { rw_count: count, ..empty });
    }
}

#[test]
fn a_kind_above_2_is_unsound() {
    for kind in [3, 4, u32::MAX] {
        for place in [0, 31] {
            with_place(place, SegmentRecord { kind, ..SegmentRecord::default() }).into_iter().for_each(is_unsound);
        }
    }
}

#[test]
fn no_right_with_a_slot_is_unsound() {
    for slot in [1, 7, u32::MAX] {
        with_place(0, SegmentRecord { slot, ..SegmentRecord::default() }).into_iter().for_each(is_unsound);
    }
}
