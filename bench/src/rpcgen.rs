//! The code that rpcgen generates from `xdr/flexfiles.x`, with libtirpc; `xdr/calls.c` has the calls.

/// What the build did not find.
pub const MISSING: Option<&str> = option_env!("RPCGEN_MISSING");

#[cfg(rpcgen)]
mod linked {
    extern "C" {
        fn rpcgen_read_layout(bytes: *const u8, length: u32) -> i32;
        fn rpcgen_read_device(bytes: *const u8, length: u32) -> i32;
        fn rpcgen_read_reports(bytes: *const u8, length: u32) -> i32;
        fn rpcgen_keep_reports(bytes: *const u8, length: u32) -> i32;
        fn rpcgen_write_reports(out: *mut u8, length: u32) -> u32;
    }

    // Each call reads or writes within the slice that it is handed. The kept reports are static: keep them once, then write from one thread.

    pub fn read_layout(body: &[u8]) -> bool {
        unsafe { rpcgen_read_layout(body.as_ptr(), body.len() as u32) != 0 }
    }

    pub fn read_device(body: &[u8]) -> bool {
        unsafe { rpcgen_read_device(body.as_ptr(), body.len() as u32) != 0 }
    }

    pub fn read_reports(body: &[u8]) -> bool {
        unsafe { rpcgen_read_reports(body.as_ptr(), body.len() as u32) != 0 }
    }

    pub fn keep_reports(body: &[u8]) -> bool {
        unsafe { rpcgen_keep_reports(body.as_ptr(), body.len() as u32) != 0 }
    }

    pub fn write_reports(out: &mut [u8]) -> usize {
        unsafe { rpcgen_write_reports(out.as_mut_ptr(), out.len() as u32) as usize }
    }
}

#[cfg(rpcgen)]
pub use linked::*;

/// Nothing is linked, and nothing of this is measured.
#[cfg(not(rpcgen))]
mod absent {
    pub fn read_layout(_: &[u8]) -> bool {
        true
    }

    pub fn read_device(_: &[u8]) -> bool {
        true
    }

    pub fn read_reports(_: &[u8]) -> bool {
        true
    }

    pub fn keep_reports(_: &[u8]) -> bool {
        true
    }

    pub fn write_reports(_: &mut [u8]) -> usize {
        0
    }
}

#[cfg(not(rpcgen))]
pub use absent::*;
