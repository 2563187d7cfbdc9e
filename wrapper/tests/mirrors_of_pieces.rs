//! The mirror that is named, stripe unit after stripe unit; docs/CHART.md works the expected numbers out by hand.

use basilothyn::{Iomode, Layouts, MirrorNumber, Piece};

/// A READ layout of the whole file: units of 4,096 bytes, two mirrors of two data servers.
const BEST_BY_STRIPE: &[u8] = include_bytes!("../../crates/chart/data/best_by_stripe.bin");
const BOTH: [MirrorNumber; 2] = [MirrorNumber(0), MirrorNumber(1)];

/// First and last bytes of units, and the mirror that has the better data server there.
const BEST: [(u64, MirrorNumber); 6] =
    [(0, BOTH[0]), (4_095, BOTH[0]), (4_096, BOTH[1]), (8_191, BOTH[1]), (8_192, BOTH[0]), (12_288, BOTH[1])];

/// The layout in an iomode and with flags.
fn granted(iomode: Iomode, flags: u8) -> Layouts {
    let mut layout4 = BEST_BY_STRIPE.to_vec();
    let last_of_flags = layout4.len() - 5;
    layout4[19] = iomode.number() as u8;
    layout4[last_of_flags] = flags;
    let mut layouts = Layouts::default();
    assert_eq!(layouts.grant(&layout4), Ok(()));
    layouts
}

fn mirrors(piece: Piece) -> Vec<MirrorNumber> {
    piece.mirrors.iter().collect()
}

#[test]
fn a_read_goes_to_the_best_server_of_its_stripe() {
    for layouts in [granted(Iomode::Read, 0), granted(Iomode::ReadWrite, 0), granted(Iomode::ReadWrite, 8)] {
        for (offset, best) in BEST {
            let read = layouts.locate_read(offset, 10_000).expect("a right");
            assert_eq!(mirrors(read), [best], "at {offset}");
            let layout = layouts.layout(read.slot).expect("a body");
            let efficiencies = BOTH.map(|mirror| layout.efficiency(mirror, read.stripe).expect("a data server"));
            assert_eq!(efficiencies, if best == BOTH[0] { [9, 1] } else { [1, 9] }, "at {offset}");
        }
    }
}

#[test]
fn a_write_goes_to_all_mirrors_or_with_flag_8_to_that_one() {
    let (all, one) = (granted(Iomode::ReadWrite, 0), granted(Iomode::ReadWrite, 8));
    for (offset, best) in BEST {
        assert_eq!(mirrors(all.locate_write(offset, 10_000).expect("a right")), BOTH, "at {offset}");
        assert_eq!(mirrors(one.locate_write(offset, 10_000).expect("a right")), [best], "at {offset}");
    }
}
