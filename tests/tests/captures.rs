//! Every captured body is read with the values that Wireshark's dissector read
//! in it. The expected values come from the captures' `index.json` only.

mod support;

use case_files::generate::captured::{captures_folder, read_captures, CaptureKind, FOLDERS};
use independent::device::{read_device_body, NetidClass};
use independent::layout::{read_server_at, Server};
use independent::layout4::{read_layout4, BODY_IN_LAYOUT4};
use independent::refusal::Refusal;
use independent::report::{read_layout_return, write_layout_return};
use independent::statistics::{IoInfo, Latency, Statistic, Time};
use std::fs;
use support::json::{parse, Json};

/// The index entries of a kind, each with its file's bytes.
fn entries_of(kind: &str) -> Vec<(Json, Vec<u8>)> {
    let mut entries = Vec::new();
    for folder in FOLDERS {
        let folder = captures_folder().join(folder);
        let index = fs::read_to_string(folder.join("index.json")).expect("the index");
        for entry in parse(&index).list() {
            if entry.get("kind").text() == kind {
                let bytes = fs::read(folder.join(entry.get("file").text())).expect("the body");
                assert_eq!(bytes.len() as u64, entry.get("size").number());
                entries.push((entry.clone(), bytes));
            }
        }
    }
    entries
}

fn from_hex(text: &str) -> Vec<u8> {
    let digit_pairs = (0..text.len()).step_by(2).map(|place| &text[place..place + 2]);
    digit_pairs.map(|pair| u8::from_str_radix(pair, 16).expect("two hex digits")).collect()
}

/// A stateid's 16 bytes: "a 4-byte seqid and 12 more".
fn stateid_bytes(stateid: &Json) -> Vec<u8> {
    let seqid = stateid.get("seqid").number() as u32;
    [&seqid.to_be_bytes()[..], &from_hex(stateid.get("other").text())].concat()
}

#[test]
fn every_captured_body_is_in_the_index() {
    let files = read_captures().expect("the captures");
    let kinds = [
        ("layout4", CaptureKind::Layout4),
        ("device_addr", CaptureKind::Device),
        ("layoutreturn", CaptureKind::LayoutReturn),
    ];
    for (name, kind) in kinds {
        let mut from_index: Vec<_> = entries_of(name).into_iter().map(|entry| entry.1).collect();
        let mut from_files: Vec<_> =
            files.iter().filter(|file| file.kind == kind).map(|file| file.bytes.clone()).collect();
        assert!(!from_index.is_empty());
        from_index.sort();
        from_files.sort();
        assert_eq!(from_index, from_files, "{name}");
    }
}

#[test]
fn layouts_have_the_dissectors_values() {
    for (entry, bytes) in entries_of("layout4") {
        let values = entry.get("tshark");
        let layout = read_layout4(&bytes).expect("an accepted layout4");
        assert_eq!(layout.offset, values.get("offset").number());
        assert_eq!(layout.length, values.get("length").number());
        assert_eq!(u64::from(layout.iomode), values.get("iomode").number());
        assert_eq!(values.get("layout_type").number(), 4);
        assert_eq!(layout.body_length as u64, entry.get("body_size").number());
        assert_eq!(layout.summary.unit, values.get("stripe_unit").number());
        assert_eq!(u64::from(layout.summary.mirrors), values.get("mirror_count").number());
        assert_eq!(u64::from(layout.summary.flags), values.get("flags").number());
        assert_eq!(u64::from(layout.summary.hint), values.get("stats_collect_hint").number());
        let mirrors = values.get("mirrors").list();
        assert_eq!(layout.summary.mirrors as usize, mirrors.len());
        let body = &bytes[BODY_IN_LAYOUT4..];
        check_starts(body, &layout.summary.starts, layout.summary.servers as usize, mirrors);
    }
}

/// Each start leads to the dissector's server, and the other entries are 0.
fn check_starts(body: &[u8], starts: &[u16], server_count: usize, mirrors: &[Json]) {
    for (mirror, places) in starts.chunks(16).enumerate() {
        let servers = mirrors.get(mirror).map_or(&[][..], Json::list);
        assert!(servers.is_empty() || servers.len() == server_count);
        for (stripe, &start) in places.iter().enumerate() {
            match servers.get(stripe) {
                Some(expected) => {
                    let server = read_server_at(body, start.into()).expect("a server");
                    check_server(body, &server, expected);
                }
                None => assert_eq!(start, 0),
            }
        }
    }
}

fn check_server(body: &[u8], server: &Server, expected: &Json) {
    assert_eq!(server.device_id[..], from_hex(expected.get("deviceid").text()));
    assert_eq!(u64::from(server.efficiency), expected.get("efficiency").number());
    assert_eq!(server.stateid.of(body), stateid_bytes(expected.get("stateid")));
    let filehandles = expected.get("fh_vers").list();
    assert_eq!(server.filehandle_count as usize, filehandles.len());
    for (filehandle, expected) in server.filehandles.iter().zip(filehandles) {
        assert_eq!(filehandle.of(body), from_hex(expected.text()));
    }
    assert_eq!(server.user.of(body), expected.get("user").text().as_bytes());
    assert_eq!(server.group.of(body), expected.get("group").text().as_bytes());
}

#[test]
fn devices_have_the_dissectors_values() {
    for (entry, body) in entries_of("device_addr") {
        let values = entry.get("tshark");
        let device = read_device_body(&body).expect("an accepted device body");
        let addresses = values.get("netaddrs").list();
        assert_eq!(device.addresses().len(), addresses.len());
        for (address, expected) in device.addresses().iter().zip(addresses) {
            assert_eq!(address.text.of(&body), expected.get("uaddr").text().as_bytes());
            assert_eq!(address.class, expected_class(expected.get("netid").text()));
        }
        let versions = values.get("versions").list();
        assert_eq!(device.versions().len(), versions.len());
        for (version, expected) in device.versions().iter().zip(versions) {
            assert_eq!(u64::from(version.version), expected.get("version").number());
            assert_eq!(u64::from(version.minor), expected.get("minorversion").number());
            assert_eq!(u64::from(version.rsize), expected.get("rsize").number());
            assert_eq!(u64::from(version.wsize), expected.get("wsize").number());
            assert_eq!(u64::from(version.tight), expected.get("tightly_coupled").number());
        }
    }
}

/// The two netids of the recordings.
fn expected_class(netid: &str) -> NetidClass {
    match netid {
        "tcp" => NetidClass::Tcp,
        "tcp6" => NetidClass::Tcp6,
        other => panic!("no recording has the netid {other:?}"),
    }
}

#[test]
fn layout_returns_have_the_dissectors_values() {
    let mut records = 0;
    for (entry, body) in entries_of("layoutreturn") {
        let values = entry.get("tshark");
        let read = read_layout_return(&body).expect("an accepted body");
        // No recording has an error report.
        assert_eq!(values.get("ioerr_count").number(), 0);
        assert!(values.get("ioerr").list().is_empty());
        assert_eq!(read.heads, []);
        assert_eq!(read.errors, []);
        let expected = values.get("iostats").list();
        assert_eq!(values.get("iostats_count").number(), expected.len() as u64);
        assert_eq!(read.statistics.len(), expected.len());
        for (statistic, expected) in read.statistics.iter().zip(expected) {
            check_statistic(statistic, expected);
        }
        records += expected.len();
    }
    assert_eq!(records, 19);
}

fn check_statistic(statistic: &Statistic, expected: &Json) {
    assert_eq!(statistic.offset, expected.get("offset").number());
    assert_eq!(statistic.length, expected.get("length").number());
    assert_eq!(statistic.stateid[..], stateid_bytes(expected.get("stateid")));
    check_io_info(&statistic.read, expected.get("read"));
    check_io_info(&statistic.write, expected.get("write"));
    assert_eq!(statistic.device_id[..], from_hex(expected.get("deviceid").text()));
    let update = expected.get("layoutupdate");
    assert_eq!(statistic.netid.content(), update.get("netid").text().as_bytes());
    assert_eq!(statistic.address.content(), update.get("uaddr").text().as_bytes());
    assert_eq!(statistic.filehandle.content(), from_hex(update.get("fh").text()));
    check_latency(&statistic.read_latency, update.get("read"));
    check_latency(&statistic.write_latency, update.get("write"));
    check_time(&statistic.duration, update.get("duration"));
    assert_eq!(u64::from(statistic.local), update.get("local").number());
}

fn check_io_info(io_info: &IoInfo, expected: &Json) {
    assert_eq!(io_info.count, expected.get("count").number());
    assert_eq!(io_info.bytes, expected.get("bytes").number());
}

fn check_latency(latency: &Latency, expected: &Json) {
    assert_eq!(latency.ops_requested, expected.get("ops_requested").number());
    assert_eq!(latency.bytes_requested, expected.get("bytes_requested").number());
    assert_eq!(latency.ops_completed, expected.get("ops_completed").number());
    assert_eq!(latency.bytes_completed, expected.get("bytes_completed").number());
    assert_eq!(latency.bytes_not_delivered, expected.get("bytes_not_delivered").number());
    check_time(&latency.total_busy_time, expected.get("total_busy_time"));
    check_time(&latency.aggregate_completion_time, expected.get("aggregate_completion_time"));
}

/// Seconds, which are not negative, and nanoseconds.
fn check_time(time: &Time, expected: &Json) {
    let parts: Vec<u64> = expected.list().iter().map(Json::number).collect();
    assert_eq!([time.seconds as u64, u64::from(time.nanoseconds)], parts[..]);
}

/// "writing what was read gives the same bytes" (C-13)
#[test]
fn layout_returns_are_written_again() {
    for (_, body) in entries_of("layoutreturn") {
        let read = read_layout_return(&body).expect("an accepted body");
        let mut output = vec![165; body.len() + 1];
        let count = read.statistics.len() as u32;
        let written = write_layout_return(0, &Default::default(), &[], count, &read.statistics, &mut output);
        assert_eq!(written, Ok(body.len()));
        assert_eq!(output[..body.len()], body);
        assert_eq!(output[body.len()], 165);
    }
}

/// Each captured body with a byte more, and with each byte fewer.
#[test]
fn layout_returns_end_where_they_end() {
    for (_, body) in entries_of("layoutreturn") {
        assert_eq!(read_layout_return(&[&body[..], &[0]].concat()), Err(Refusal::BytesLeftOver));
        for length in 0..body.len() {
            assert_eq!(read_layout_return(&body[..length]), Err(Refusal::BytesRunOut), "cut to {length}");
        }
    }
}
