//! Cases from real traffic: every captured body, and captured layouts bound to
//! captured devices.

use independent::binding::BindRequest;
use independent::cases::{kind, CaseFileWriter};
use independent::layout::{read_layout_body, read_server_at, LayoutSummary};
use independent::layout4::BODY_IN_LAYOUT4;
use independent::samples::bodies::{DevicePlan, VersionPlan, LOOSE_VERSIONS};
use std::path::{Path, PathBuf};
use std::{fs, io};

/// The two folders of captures.
pub const FOLDERS: [&str; 2] = ["patched-server", "stock"];

/// What a captured file holds, by the letters in its name.
#[derive(Clone, Copy, Debug, PartialEq, Eq)]
pub enum CaptureKind {
    Layout4,
    Device,
    LayoutReturn,
}

/// One captured body.
#[derive(Clone, Debug, PartialEq, Eq)]
pub struct Capture {
    pub recording: String,
    pub kind: CaptureKind,
    pub bytes: Vec<u8>,
}

/// The folder of captures beside this package.
pub fn captures_folder() -> PathBuf {
    Path::new(env!("CARGO_MANIFEST_DIR")).join("../captures")
}

/// All captured bodies of this part, in the order of their names.
pub fn read_captures() -> io::Result<Vec<Capture>> {
    let mut captures = Vec::new();
    for folder in FOLDERS {
        let entries = fs::read_dir(captures_folder().join(folder))?;
        let mut paths = entries.map(|entry| Ok(entry?.path())).collect::<io::Result<Vec<_>>>()?;
        paths.sort();
        for path in paths {
            if let Some((recording, kind)) = parse_name(&path) {
                captures.push(Capture { recording, kind, bytes: fs::read(&path)? });
            }
        }
    }
    Ok(captures)
}

/// `RECORDING_lg000_0.bin`, `RECORDING_gd000.bin` or `RECORDING_lr000.bin`.
fn parse_name(path: &Path) -> Option<(String, CaptureKind)> {
    let name = path.file_name()?.to_str()?.strip_suffix(".bin")?;
    let kinds = [("_lg", CaptureKind::Layout4), ("_gd", CaptureKind::Device), ("_lr", CaptureKind::LayoutReturn)];
    kinds.iter().find_map(|&(letters, kind)| {
        let (recording, number) = name.rsplit_once(letters)?;
        number.starts_with(|c: char| c.is_ascii_digit()).then(|| (recording.to_string(), kind))
    })
}

/// Every captured body as a case of its own.
pub fn add_bodies(cases: &mut CaseFileWriter, captures: &[Capture]) {
    for capture in captures {
        match capture.kind {
            CaptureKind::Layout4 => {
                cases.record(kind::LAYOUT4, &capture.bytes);
                cases.record(kind::LAYOUT_BODY, &capture.bytes[BODY_IN_LAYOUT4..]);
            }
            CaptureKind::Device => cases.record(kind::DEVICE, &capture.bytes),
            CaptureKind::LayoutReturn => cases.record(kind::REPORT_READ, &capture.bytes),
        }
    }
}

/// Each captured layout with the devices of its recording, and with a device
/// of our own that offers each version.
pub fn add_bindings(cases: &mut CaseFileWriter, captures: &[Capture]) {
    let of_kind = |kind| captures.iter().filter(move |capture| capture.kind == kind);
    for layout in of_kind(CaptureKind::Layout4) {
        let layout_body = &layout.bytes[BODY_IN_LAYOUT4..];
        let Ok(summary) = read_layout_body(layout_body) else { continue };
        for device in of_kind(CaptureKind::Device) {
            if device.recording == layout.recording {
                bind_every_server(cases, layout_body, &summary, &device.bytes, &[15, 4]);
            }
        }
        let own = own_device(layout_body);
        bind_every_server(cases, layout_body, &summary, &own, &[15, 2]);
    }
}

/// A device with as many versions as the layout's first server has filehandles.
fn own_device(layout_body: &[u8]) -> Vec<u8> {
    let first = read_server_at(layout_body, 16).map(|server| server.filehandle_count);
    let versions: &[VersionPlan] = &LOOSE_VERSIONS[..first.unwrap_or(1).min(4) as usize];
    DevicePlan::with_versions(versions).encode().bytes
}

fn bind_every_server(
    cases: &mut CaseFileWriter,
    layout_body: &[u8],
    summary: &LayoutSummary,
    device_body: &[u8],
    supported: &[u32],
) {
    for mirror in 0..summary.mirrors {
        for stripe in 0..summary.servers {
            let start = usize::from(summary.starts[(mirror * 16 + stripe) as usize]);
            let mut device_id = [0; 16];
            device_id.copy_from_slice(&layout_body[start..start + 16]);
            for &supported_versions in supported {
                let request = BindRequest { mirror, stripe, supported_versions, device_id, layout_body, device_body };
                cases.bind(&request);
            }
        }
    }
}
