//! A captured layout through the safe types; the expected numbers are worked out by hand in docs/CHART.md.

use basilothyn::{Iomode, Layouts, MirrorNumber, Piece, Refusal, SlotNumber, StripeNumber};

const P4: &[u8] = include_bytes!("../../captures/patched-server/P4_striped_lg000_0.bin");

fn granted() -> Layouts {
    let mut layouts = Layouts::default();
    assert_eq!(layouts.grant(P4), Ok(()));
    layouts
}

/// Served by RW from slot 0, by mirror 0 alone.
fn is_piece(piece: Result<Piece, Refusal>, stripe: u32, offset: u64, length: u64) {
    let piece = piece.expect("a right");
    assert_eq!((piece.iomode, piece.slot, piece.stripe), (Iomode::ReadWrite, SlotNumber(0), StripeNumber(stripe)));
    assert_eq!((piece.offset, piece.length), (offset, length));
    assert_eq!(piece.mirrors.iter().collect::<Vec<_>>(), [MirrorNumber(0)]);
}

#[test]
fn a_write_goes_to_the_stripe_of_its_unit() {
    is_piece(granted().locate_write(65_535, 4_096), 0, 65_535, 1);
    is_piece(granted().locate_read(65_536, 4_096), 1, 65_536, 4_096);
}

/// The captured layout in another iomode and with other flags; docs/CHART.md shows both in its bytes.
fn changed(iomode: Iomode, flags: u8) -> Vec<u8> {
    let mut layout4 = P4.to_vec();
    let last_of_flags = layout4.len() - 5;
    layout4[19] = iomode.number() as u8;
    layout4[last_of_flags] = flags;
    layout4
}

/// "where both serve at its first byte, RW is used" (C-11). READ's body is in slot 0, RW's in slot 1.
#[test]
fn a_read_goes_through_rw_unless_flag_4_is_in_its_body() {
    for (flags, expected) in [(1, (Iomode::ReadWrite, SlotNumber(1))), (4, (Iomode::Read, SlotNumber(0)))] {
        let mut layouts = Layouts::default();
        assert_eq!(layouts.grant(&changed(Iomode::Read, 0)), Ok(()));
        assert_eq!(layouts.grant(&changed(Iomode::ReadWrite, flags)), Ok(()));
        let served = |layouts: &Layouts| layouts.locate_read(0, 1).map(|piece| (piece.iomode, piece.slot));
        assert_eq!(served(&layouts), Ok(expected));
        assert_eq!(layouts.recall(0, u64::MAX, Iomode::ReadWrite), Ok(()));
        assert_eq!(served(&layouts), Ok((Iomode::Read, SlotNumber(0))));
    }
}

#[test]
fn a_slot_has_the_body_until_it_is_cleared() {
    let mut layouts = granted();
    assert_eq!(layouts.body(SlotNumber(0)), &P4[28..]);
    let layout = layouts.layout(SlotNumber(0)).expect("a body");
    assert_eq!((layout.unit(), layout.mirror_count(), layout.server_count()), (65_536, 1, 2));
    for empty in [SlotNumber(1), SlotNumber(7), SlotNumber(8), SlotNumber(u32::MAX)] {
        assert_eq!(layouts.body(empty), []);
        assert_eq!(layouts.layout(empty), Err(Refusal::BytesRunOut));
    }
    assert_eq!(layouts.revoke(), Ok(()));
    assert_eq!(layouts.body(SlotNumber(0)), []);
}

#[test]
fn nothing_is_written_after_a_recall() {
    let mut layouts = granted();
    assert_eq!(layouts.recall(0, u64::MAX, Iomode::Any), Ok(()));
    assert_eq!(layouts.locate_write(0, 1), Err(Refusal::RightMissing));
    assert_eq!(layouts.grant(P4), Err(Refusal::RecalledInRange));
    assert_eq!(layouts.layout_return(0, u64::MAX, Iomode::Any), Ok(()));
    assert_eq!(layouts.recall(0, 1, Iomode::Any), Err(Refusal::NothingHeld));
    assert_eq!(layouts, Layouts::default());
}

#[test]
fn an_iomode_is_recalled_by_itself() {
    let mut layouts = granted();
    assert_eq!(layouts.recall(0, u64::MAX, Iomode::Read), Err(Refusal::NothingHeld));
    is_piece(layouts.locate_write(0, 1), 0, 0, 1);
    assert_eq!(layouts.recall(0, u64::MAX, Iomode::ReadWrite), Ok(()));
    assert_eq!(layouts.locate_write(0, 1), Err(Refusal::RightMissing));
}

#[test]
fn a_refused_event_changes_nothing() {
    let mut layouts = granted();
    assert_eq!(layouts.layout_return(1, 0, Iomode::Any), Err(Refusal::RangeInvalid));
    assert_eq!(layouts.grant(&P4[..100]), Err(Refusal::BytesRunOut));
    assert_eq!(layouts, granted());
}

#[test]
fn a_revoke_takes_every_right() {
    let mut layouts = granted();
    assert_eq!(layouts.revoke(), Ok(()));
    assert_eq!(layouts.locate_read(0, 1), Err(Refusal::RightMissing));
}
