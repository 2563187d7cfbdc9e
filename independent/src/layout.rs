//! The layout body, `ff_layout4` of RFC 8435 section 5.1.

use crate::refusal::Refusal;
use crate::xdr::{Cursor, Extent};

/// "body at most 4,090 bytes"
pub const BODY_LIMIT: usize = 4_090;
/// "1 to 8 mirrors"
pub const MIRROR_LIMIT: u32 = 8;
/// "1 to 16 servers a mirror"
pub const SERVER_LIMIT: u32 = 16;
/// "1 to 8 filehandles a server"
pub const FILEHANDLE_LIMIT: u32 = 8;
/// "a filehandle of 1 to 128 bytes"
pub const FILEHANDLE_LENGTH_LIMIT: u32 = 128;
/// "user and group of 0 to 64 bytes, content not judged"
pub const OWNER_LENGTH_LIMIT: u32 = 64;
/// "Flags are bits 1 .. 2 .. 4 .. 8"
pub const KNOWN_FLAGS: u32 = 1 | 2 | NO_READ_IO | WRITE_ONE_MIRROR;
/// FF_FLAGS_NO_READ_IO: "no reads on a read-write layout"
pub const NO_READ_IO: u32 = 4;
/// FF_FLAGS_WRITE_ONE_MIRROR: "write one mirror"
pub const WRITE_ONE_MIRROR: u32 = 8;
/// One place for each mirror and stripe that the limits allow.
pub const START_ENTRIES: usize = (MIRROR_LIMIT * SERVER_LIMIT) as usize;

/// "The reader's summary says where each server starts, by mirror and by
/// stripe, as byte offsets from the body's first byte, with 0 in unused
/// places." A server's place is mirror * 16 + stripe.
#[derive(Clone, Debug, PartialEq, Eq)]
pub struct LayoutSummary {
    pub unit: u64,
    pub mirrors: u32,
    pub servers: u32,
    pub flags: u32,
    pub hint: u32,
    pub starts: [u16; START_ENTRIES],
}

impl LayoutSummary {
    /// Where a server starts, or 16 "mirror or stripe number beyond the layout".
    pub fn start(&self, mirror: u32, stripe: u32) -> Result<usize, Refusal> {
        if mirror >= self.mirrors || stripe >= self.servers {
            return Err(Refusal::BeyondLayout);
        }
        Ok(usize::from(self.starts[start_index(mirror, stripe)]))
    }
}

/// One data server of a layout; offsets are counted from the body's first byte.
#[derive(Clone, Copy, Debug, PartialEq, Eq)]
pub struct Server {
    pub device_id: [u8; 16],
    pub efficiency: u32,
    pub stateid: Extent,
    pub filehandle_count: u32,
    pub filehandles: [Extent; FILEHANDLE_LIMIT as usize],
    pub user: Extent,
    pub group: Extent,
}

/// Reads a layout body: "stripe unit (8); mirror count (4) and mirrors; flags
/// (4); statistics hint (4, any)".
pub fn read_layout_body(body: &[u8]) -> Result<LayoutSummary, Refusal> {
    // "body at most 4,090 bytes, tested before anything in it"
    if body.len() > BODY_LIMIT {
        return Err(Refusal::OutsideLimit);
    }
    let mut cursor = Cursor::new(body);
    let unit = cursor.uhyper()?;
    let mirrors = cursor.count(1..=MIRROR_LIMIT)?;
    let mut starts = [0; START_ENTRIES];
    let servers = read_server_count(&mut cursor)?;
    check_unit(unit, servers)?;
    read_servers(&mut cursor, 0, servers, &mut starts)?;
    for mirror in 1..mirrors {
        // Refusal 8 comes out of the count's own item, so before 9.
        if read_server_count(&mut cursor)? != servers {
            return Err(Refusal::ServerCountsDiffer);
        }
        read_servers(&mut cursor, mirror, servers, &mut starts)?;
    }
    let flags = read_flags(&mut cursor)?;
    let hint = cursor.uint()?;
    cursor.finish()?;
    Ok(LayoutSummary { unit, mirrors, servers, flags, hint, starts })
}

/// Reads the server that starts at the given place of an accepted body.
pub fn read_server_at(body: &[u8], start: usize) -> Result<Server, Refusal> {
    read_server(&mut Cursor::starting_at(body, start))
}

fn start_index(mirror: u32, stripe: u32) -> usize {
    (mirror * SERVER_LIMIT + stripe) as usize
}

fn read_server_count(cursor: &mut Cursor) -> Result<u32, Refusal> {
    cursor.count(1..=SERVER_LIMIT)
}

/// "with one server the unit is 0; with more we require it to be above 0".
/// The first server count is where this fault is met.
fn check_unit(unit: u64, servers: u32) -> Result<(), Refusal> {
    if (servers == 1) == (unit == 0) {
        Ok(())
    } else {
        Err(Refusal::UnitDisagrees)
    }
}

fn read_servers(
    cursor: &mut Cursor,
    mirror: u32,
    servers: u32,
    starts: &mut [u16; START_ENTRIES],
) -> Result<(), Refusal> {
    for stripe in 0..servers {
        // A place in a body of at most 4,090 bytes fits 16 bits.
        starts[start_index(mirror, stripe)] = cursor.offset() as u16;
        read_server(cursor)?;
    }
    Ok(())
}

/// "A server: device id (16), efficiency (4), stateid (16: a 4-byte seqid and
/// 12 more), filehandle count (4) and filehandles, user, group."
#[inline]
fn read_server(cursor: &mut Cursor) -> Result<Server, Refusal> {
    let device_id = cursor.fixed()?;
    let efficiency = cursor.uint()?;
    let stateid = Extent { start: cursor.offset(), length: 16 };
    cursor.take(16)?;
    let filehandle_count = cursor.count(1..=FILEHANDLE_LIMIT)?;
    let mut filehandles = [Extent::default(); FILEHANDLE_LIMIT as usize];
    for filehandle in &mut filehandles[..filehandle_count as usize] {
        *filehandle = cursor.opaque(1..=FILEHANDLE_LENGTH_LIMIT)?;
    }
    let user = cursor.opaque(0..=OWNER_LENGTH_LIMIT)?;
    let group = cursor.opaque(0..=OWNER_LENGTH_LIMIT)?;
    Ok(Server { device_id, efficiency, stateid, filehandle_count, filehandles, user, group })
}

/// "any other bit is refused (ours)"
fn read_flags(cursor: &mut Cursor) -> Result<u32, Refusal> {
    let flags = cursor.uint()?;
    if flags & !KNOWN_FLAGS == 0 {
        Ok(flags)
    } else {
        Err(Refusal::UnknownFlag)
    }
}

#[cfg(test)]
mod tests {
    use super::*;
    use crate::samples::bodies::{LayoutPlan, ServerPlan};
    use crate::samples::wire::{extended, overwritten, Item, Opaque};

    /// 01: "The smallest accepted body has 80 bytes."
    fn smallest_by_hand() -> Vec<u8> {
        let mut body = vec![0; 8]; // stripe unit 0
        body.extend([0, 0, 0, 1]); // one mirror
        body.extend([0, 0, 0, 1]); // one server
        body.extend([7; 16]); // device id
        body.extend([0, 0, 0, 9]); // efficiency
        body.extend([0; 16]); // stateid
        body.extend([0, 0, 0, 1]); // one filehandle
        body.extend([0, 0, 0, 1, 0xee, 0, 0, 0]); // of one byte
        body.extend([0; 4]); // user
        body.extend([0; 4]); // group
        body.extend([0, 0, 0, 8]); // flags
        body.extend([0, 0, 0, 60]); // statistics hint
        body
    }

    fn refusal(body: &[u8]) -> Option<u8> {
        read_layout_body(body).err().map(Refusal::number)
    }

    #[test]
    fn smallest_body_has_80_bytes() {
        let body = smallest_by_hand();
        assert_eq!(body.len(), 80);
        let summary = read_layout_body(&body).unwrap();
        assert_eq!((summary.unit, summary.mirrors, summary.servers), (0, 1, 1));
        assert_eq!((summary.flags, summary.hint), (8, 60));
        assert_eq!(summary.starts[0], 16);
        assert!(summary.starts[1..].iter().all(|&start| start == 0));
    }

    #[test]
    fn every_cut_runs_out_and_every_extra_byte_is_left_over() {
        let body = smallest_by_hand();
        for length in 0..80 {
            assert_eq!(refusal(&body[..length]), Some(1), "cut to {length}");
        }
        for more in 1..8 {
            assert_eq!(refusal(&extended(&body, &vec![0; more])), Some(2));
        }
    }

    #[test]
    fn starts_stand_by_mirror_and_stripe() {
        let summary = read_layout_body(&LayoutPlan::plain(2, 3).encode().bytes).unwrap();
        // 8 + 4 + 4 bytes in front, 56 a server, 4 a later mirror's count.
        assert_eq!(summary.starts[..4], [16, 72, 128, 0]);
        assert_eq!(summary.starts[16..20], [188, 244, 300, 0]);
        assert_eq!(summary.start(1, 2), Ok(300));
        assert_eq!(summary.start(2, 0), Err(Refusal::BeyondLayout));
        assert_eq!(summary.start(0, 3), Err(Refusal::BeyondLayout));
        assert_eq!(summary.start(u32::MAX, 0), Err(Refusal::BeyondLayout));
    }

    #[test]
    fn a_server_is_found_again_at_its_start() {
        let mut plan = LayoutPlan::plain(1, 2);
        plan.mirrors[0][1] = ServerPlan::sized(5, &[2, 128], 64, 3);
        let server = read_server_at(&plan.encode().bytes, 72).unwrap();
        assert_eq!(server.device_id, plan.mirrors[0][1].device_id);
        assert_eq!(server.efficiency, 5);
        // Efficiency 16 bytes after the start, stateid 20, filehandles from 44.
        assert_eq!(server.stateid, Extent { start: 92, length: 16 });
        assert_eq!(server.filehandle_count, 2);
        assert_eq!(server.filehandles[0], Extent { start: 116, length: 2 });
        assert_eq!(server.filehandles[1], Extent { start: 124, length: 128 });
        assert_eq!(server.user, Extent { start: 256, length: 64 });
        assert_eq!(server.group, Extent { start: 324, length: 3 });
    }

    #[test]
    fn body_length_is_tested_before_anything_in_it() {
        assert_eq!(refusal(&[0xff; 4_091]), Some(8));
        // 4,090 bytes pass that test: the mirror count is met next.
        assert_eq!(refusal(&[0; 4_090]), Some(8));
        let mut one_mirror = vec![0; 4_090];
        one_mirror[11] = 1;
        one_mirror[15] = 1;
        one_mirror[55] = 1;
        one_mirror[59] = 1;
        // An accepted body's items end long before byte 4,090.
        assert_eq!(refusal(&one_mirror), Some(2));
    }

    #[test]
    fn counts_and_lengths_have_their_limits() {
        let wire = LayoutPlan::two_by_two().encode();
        let limits = [
            (Item::MirrorCount, vec![0, 9, u32::MAX]),
            (Item::ServerCount, vec![0, 17, u32::MAX]),
            (Item::FilehandleCount, vec![0, 9, u32::MAX]),
            (Item::LengthOf(Opaque::Filehandle), vec![0, 129, u32::MAX]),
            (Item::LengthOf(Opaque::User), vec![65, u32::MAX]),
            (Item::LengthOf(Opaque::Group), vec![65, u32::MAX]),
        ];
        for (item, values) in limits {
            for value in values {
                assert_eq!(refusal(&wire.with_uint(item, 0, value)), Some(8), "{item:?} {value}");
            }
        }
    }

    #[test]
    fn the_limits_themselves_are_accepted() {
        let server = ServerPlan::sized(1, &[128; 8], 64, 64);
        let body = LayoutPlan::of_server(server).encode().bytes;
        // 1,232 bytes of server, 24 around it.
        assert_eq!(body.len(), 1_256);
        assert_eq!(refusal(&body), None);
        assert_eq!(read_layout_body(&LayoutPlan::plain(8, 1).encode().bytes).unwrap().mirrors, 8);
        assert_eq!(read_layout_body(&LayoutPlan::plain(1, 16).encode().bytes).unwrap().servers, 16);
    }

    #[test]
    fn unit_and_first_server_count() {
        let unit = |plan: &LayoutPlan, unit| LayoutPlan { unit, ..plan.clone() }.encode().bytes;
        let one = LayoutPlan::plain(1, 1);
        let two = LayoutPlan::plain(1, 2);
        assert_eq!(refusal(&unit(&one, 1)), Some(10));
        assert_eq!(refusal(&unit(&one, 1 << 32)), Some(10));
        assert_eq!(refusal(&unit(&two, 0)), Some(10));
        assert_eq!(refusal(&unit(&two, 1)), None);
        assert_eq!(refusal(&unit(&two, 1 << 32)), None);
    }

    #[test]
    fn eight_comes_before_nine_and_ten() {
        let wire = LayoutPlan::plain(2, 1).encode();
        assert_eq!(refusal(&wire.with_uint(Item::ServerCount, 1, 2)), Some(9));
        assert_eq!(refusal(&wire.with_uint(Item::ServerCount, 1, 17)), Some(8));
        assert_eq!(refusal(&wire.with_uint(Item::ServerCount, 1, 0)), Some(8));
        assert_eq!(refusal(&wire.with_uint(Item::ServerCount, 0, 16)), Some(10));
        assert_eq!(refusal(&wire.with_uint(Item::ServerCount, 0, 17)), Some(8));
    }

    #[test]
    fn only_four_flag_bits_are_known() {
        let wire = LayoutPlan::plain(1, 1).encode();
        for bit in 0..32 {
            let expected = if bit < 4 { None } else { Some(11) };
            assert_eq!(refusal(&wire.with_uint(Item::Flags, 0, 1 << bit)), expected);
        }
    }

    #[test]
    fn the_first_fault_met_decides() {
        let body = smallest_by_hand();
        let bad_padding = overwritten(&body, 61, &[1]);
        assert_eq!(refusal(&bad_padding), Some(6));
        assert_eq!(refusal(&overwritten(&bad_padding, 72, &[1])), Some(6));
        assert_eq!(refusal(&overwritten(&bad_padding, 55, &[9])), Some(8));
        // The padding is cut off, so there are not enough bytes to judge it.
        assert_eq!(refusal(&bad_padding[..63]), Some(1));
    }
}
