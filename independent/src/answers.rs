//! The line that a case prints, and all the lines of a case file.

use crate::binding::{bind, Binding, Identity};
use crate::cases::{Case, CaseFile, Ending};
use crate::device::{read_device_body, Address, Device, NetidClass, VersionEntry};
use crate::layout::{read_layout_body, LayoutSummary};
use crate::layout4::{read_layout4, Layout4};
use crate::refusal::Refusal;
use crate::report::read_layout_return;
use crate::report_lines::{layout_return_text, report_write_line, return_write_line};
use crate::state::State;
use crate::table_lines::table_case_line;
use crate::xdr::Extent;

/// Everything printed for a case file: one line a case, then how it ended.
pub fn answer_file(bytes: &[u8]) -> String {
    let mut file = CaseFile::new(bytes);
    let mut state = State::default();
    let mut lines = String::new();
    for case in file.by_ref() {
        lines.push_str(&answer_line(&mut state, &case));
        lines.push('\n');
    }
    lines.push_str(&match file.ending() {
        Ending::End(place) => format!("end {place}\n"),
        Ending::Stop(place) => format!("stop {place}\n"),
    });
    lines
}

/// The line of one case, without its line end. Only cases of the table look at
/// the state or change it.
pub fn answer_line(state: &mut State, case: &Case) -> String {
    match case {
        Case::LayoutBody(body) => line("layout-body", read_layout_body(body), summary_text),
        Case::Layout4(bytes) => line("layout4", read_layout4(bytes), layout4_text),
        Case::Device(body) => line("device", read_device_body(body), device_text),
        Case::Bind(request) => line("bind", bind(request), binding_text),
        Case::ReportRead(body) => line("report-read", read_layout_return(body), layout_return_text),
        Case::ReportWrite(case) => report_write_line(case),
        Case::ReturnWrite(case) => return_write_line(case),
        Case::Table(case) => table_case_line(state, case),
    }
}

/// "A refusal prints the case's name and the number".
pub fn line<T>(name: &str, outcome: Result<T, Refusal>, text: impl Fn(&T) -> String) -> String {
    match outcome {
        Ok(value) => format!("{name} {}", text(&value)),
        Err(refusal) => format!("{name} refused {}", refusal.number()),
    }
}

fn summary_text(summary: &LayoutSummary) -> String {
    let LayoutSummary { unit, mirrors, servers, flags, hint, starts } = summary;
    let starts = joined(starts.iter(), ",", |start| start.to_string());
    format!("unit={unit} mirrors={mirrors} servers={servers} flags={flags} hint={hint} starts={starts}")
}

fn layout4_text(layout: &Layout4) -> String {
    let Layout4 { offset, length, iomode, body_length, summary } = layout;
    let summary = summary_text(summary);
    format!("offset={offset} length={length} iomode={iomode} body={body_length} {summary}")
}

fn device_text(device: &Device) -> String {
    let addresses = joined(device.addresses().iter(), ",", address_text);
    let versions = joined(device.versions().iter(), ",", version_text);
    format!("addresses={addresses} versions={versions}")
}

fn address_text(address: &Address) -> String {
    format!("{}:{}", class_name(address.class), extent_text(&address.text))
}

fn class_name(class: NetidClass) -> &'static str {
    match class {
        NetidClass::Tcp => "tcp",
        NetidClass::Tcp6 => "tcp6",
        NetidClass::Udp => "udp",
        NetidClass::Udp6 => "udp6",
        NetidClass::Rdma => "rdma",
        NetidClass::Rdma6 => "rdma6",
        NetidClass::Other => "other",
    }
}

fn version_text(entry: &VersionEntry) -> String {
    let VersionEntry { version, minor, rsize, wsize, tight } = entry;
    format!("{version}.{minor}:{rsize}:{wsize}:{}", u8::from(*tight))
}

fn extent_text(extent: &Extent) -> String {
    format!("{}+{}", extent.start, extent.length)
}

fn binding_text(binding: &Binding) -> String {
    let identity = match &binding.identity {
        Identity::Tight { stateid } => format!("stateid={}", stateid.start),
        Identity::Loose { user, group } => {
            format!("user={} group={}", extent_text(user), extent_text(group))
        }
    };
    format!(
        "entry={} version={}.{} filehandle={} {identity}",
        binding.entry_number,
        binding.entry.version,
        binding.entry.minor,
        extent_text(&binding.filehandle),
    )
}

pub fn joined<T>(items: impl Iterator<Item = T>, between: &str, text: impl Fn(T) -> String) -> String {
    items.map(text).collect::<Vec<_>>().join(between)
}

/// "HEX is lowercase, two digits a byte."
pub fn hex(bytes: &[u8]) -> String {
    bytes.iter().map(|byte| format!("{byte:02x}")).collect()
}

#[cfg(test)]
mod tests {
    use super::*;
    use crate::binding::BindRequest;
    use crate::cases::CaseFileWriter;
    use crate::event::Event;
    use crate::samples::bodies::{DevicePlan, Layout4Head, LayoutPlan, ServerPlan};
    use crate::table_cases::TableCase;

    fn answer_line(case: &Case) -> String {
        super::answer_line(&mut State::default(), case)
    }

    /// The 128 starts of a body with one server, whose place is always 16.
    fn one_start() -> String {
        format!("16{}", ",0".repeat(127))
    }

    #[test]
    fn layout_lines() {
        let plan = LayoutPlan { flags: 3, hint: 60, ..LayoutPlan::plain(1, 1) };
        let body = plan.encode().bytes;
        let summary = format!("unit=0 mirrors=1 servers=1 flags=3 hint=60 starts={}", one_start());
        assert_eq!(answer_line(&Case::LayoutBody(&body)), format!("layout-body {summary}"));
        let layout4 = Layout4Head { offset: 7, ..Layout4Head::whole_file() }.around(&body);
        assert_eq!(
            answer_line(&Case::Layout4(&layout4)),
            format!("layout4 offset=7 length=18446744073709551615 iomode=2 body=80 {summary}")
        );
        assert_eq!(answer_line(&Case::LayoutBody(&[])), "layout-body refused 1");
        assert_eq!(answer_line(&Case::Layout4(&[])), "layout4 refused 1");
    }

    #[test]
    fn device_line() {
        let plan = DevicePlan {
            addresses: vec![(b"tcp".to_vec(), b"ab".to_vec()), (b"q".to_vec(), b"cdefg".to_vec())],
            versions: vec![[3, 0, 8, 9, 0], [4, 2, 10, 11, 1]],
        };
        assert_eq!(
            answer_line(&Case::Device(&plan.encode().bytes)),
            "device addresses=tcp:16+2,other:32+5 versions=3.0:8:9:0,4.2:10:11:1"
        );
        assert_eq!(answer_line(&Case::Device(&[0; 4])), "device refused 8");
    }

    #[test]
    fn bind_lines() {
        let layout_body = LayoutPlan::plain(1, 1).encode().bytes;
        let line = |versions, supported_versions| {
            answer_line(&Case::Bind(BindRequest {
                mirror: 0,
                stripe: 0,
                supported_versions,
                device_id: ServerPlan::smallest(1).device_id,
                layout_body: &layout_body,
                device_body: &DevicePlan::with_versions(&[versions]).encode().bytes,
            }))
        };
        assert_eq!(line([4, 1, 1, 1, 1], 4), "bind entry=0 version=4.1 filehandle=60+1 stateid=36");
        assert_eq!(line([3, 0, 1, 1, 0], 1), "bind entry=0 version=3.0 filehandle=60+1 user=68+0 group=72+0");
        assert_eq!(line([3, 0, 1, 1, 0], 0), "bind refused 14");
    }

    #[test]
    fn files_end_or_stop() {
        assert_eq!(answer_file(&[]), "end 0\n");
        let file = [8, 0, 0, 0, 68, 0, 0, 0, 0, 0, 0, 0, 0, 0, 1];
        assert_eq!(answer_file(&file), "report-read reports=0 statistics=0\nstop 14\n");
    }

    #[test]
    fn the_state_is_kept_from_case_to_case() {
        let mut file = CaseFileWriter::default();
        let place = TableCase::SetByte { offset: 0, value: 1 };
        let revoke = TableCase::Event(Event::Revoke);
        for case in [&place, &revoke, &TableCase::Reset, &revoke] {
            file.table(case);
        }
        let lines = "set-byte done\nrevoke refused 20\nreset done\nrevoke accepted\nend 29\n";
        assert_eq!(answer_file(file.bytes()), lines);
    }
}
