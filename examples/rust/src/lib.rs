//! libcxlplan for Rust: its functions as C declares them, safe calls over slices, and a session that closes when it is dropped. What
//! the library proves of them, its header says; this crate is not proved.
#![no_std]

/// The functions of `cxlplan.h`.
#[allow(non_camel_case_types)]
pub mod raw {
    use core::ffi::{c_int, c_void};

    extern "C" {
        pub fn cxlplan_route(cedt: *const c_void, cedt_len: usize, hpa: u64, out: *mut c_void, out_len: usize, written: *mut usize) -> c_int;
        pub fn cxlplan_list(cedt: *const c_void, cedt_len: usize, out: *mut c_void, out_len: usize, written: *mut usize) -> c_int;
        pub fn cxlplan_normal(cedt: *const c_void, cedt_len: usize, out: *mut c_void, out_len: usize, written: *mut usize) -> c_int;
        pub fn cxlplan_check(
            cedt: *const c_void, cedt_len: usize, topo: *const c_void, topo_len: usize, image: *const c_void, image_len: usize,
            out: *mut c_void, out_len: usize, written: *mut usize,
        ) -> c_int;
        pub fn cxlplan_plan(
            cedt: *const c_void, cedt_len: usize, topo: *const c_void, topo_len: usize, line: *const c_void, line_len: usize,
            out: *mut c_void, out_len: usize, written: *mut usize,
        ) -> c_int;
        pub fn cxlplan_run(
            cedt: *const c_void, cedt_len: usize, topo: *const c_void, topo_len: usize, image: *const c_void, image_len: usize,
            script: *const c_void, script_len: usize, out: *mut c_void, out_len: usize, written: *mut usize,
        ) -> c_int;
        pub fn cxlplan_words(
            cedt: *const c_void, cedt_len: usize, topo: *const c_void, topo_len: usize, image: *const c_void, image_len: usize,
            script: *const c_void, script_len: usize, out: *mut c_void, out_len: usize, written: *mut usize,
        ) -> c_int;
        pub fn cxlplan_image(
            cedt: *const c_void, cedt_len: usize, topo: *const c_void, topo_len: usize, image: *const c_void, image_len: usize,
            script: *const c_void, script_len: usize, out: *mut c_void, out_len: usize, written: *mut usize,
        ) -> c_int;
        pub fn cxlplan_tree(topo: *const c_void, topo_len: usize, out: *mut c_void, out_len: usize, written: *mut usize) -> c_int;
        pub fn cxlplan_decoders(
            topo: *const c_void, topo_len: usize, image: *const c_void, image_len: usize,
            out: *mut c_void, out_len: usize, written: *mut usize,
        ) -> c_int;
        pub fn cxlplan_breaches(
            cedt: *const c_void, cedt_len: usize, topo: *const c_void, topo_len: usize, image: *const c_void, image_len: usize,
            out: *mut c_void, out_len: usize, written: *mut usize,
        ) -> c_int;
        pub fn cxlplan_windows(
            cedt: *const c_void, cedt_len: usize, topo: *const c_void, topo_len: usize,
            out: *mut c_void, out_len: usize, written: *mut usize,
        ) -> c_int;
        pub fn cxlplan_gen(number: u32, out: *mut c_void, out_len: usize, written: *mut usize) -> c_int;
        pub fn cxlplan_version(out: *mut c_void, out_len: usize, written: *mut usize) -> c_int;
        pub fn cxlplan_session_open(
            session: *mut cxlplan_session, cedt: *const c_void, cedt_len: usize, topo: *const c_void, topo_len: usize,
            image: *const c_void, image_len: usize, out: *mut c_void, out_len: usize, written: *mut usize,
        ) -> c_int;
        pub fn cxlplan_session_act(
            session: *mut cxlplan_session, lines: *const c_void, lines_len: usize, out: *mut c_void, out_len: usize, written: *mut usize,
        ) -> c_int;
        pub fn cxlplan_session_words(session: *mut cxlplan_session, rows: *mut cxlplan_word, rows_len: usize, count: *mut usize) -> c_int;
        pub fn cxlplan_session_image(session: *mut cxlplan_session, out: *mut c_void, out_len: usize, written: *mut usize) -> c_int;
        pub fn cxlplan_session_close(session: *mut cxlplan_session) -> c_int;
        pub fn cxlplan_session_down(
            session: *mut cxlplan_session, hpa: u64, place: *mut cxlplan_place, refusal: *mut cxlplan_refusal,
        ) -> c_int;
        pub fn cxlplan_session_up(
            session: *mut cxlplan_session, endpoint: *const c_void, endpoint_len: usize, dpa: u64,
            byte: *mut cxlplan_host_byte, refusal: *mut cxlplan_refusal,
        ) -> c_int;
        pub fn cxlplan_session_load(
            session: *mut cxlplan_session, hpa: u64, bytes: *mut c_void, bytes_len: usize, refusal: *mut cxlplan_refusal,
        ) -> c_int;
        pub fn cxlplan_session_store(
            session: *mut cxlplan_session, hpa: u64, bytes: *const c_void, bytes_len: usize, refusal: *mut cxlplan_refusal,
        ) -> c_int;
    }

    /// A session's handle, which begins null.
    #[repr(C)]
    pub struct cxlplan_session {
        pub held: *mut c_void,
    }

    pub use super::{HostByte as cxlplan_host_byte, Place as cxlplan_place, Refusal as cxlplan_refusal, Word as cxlplan_word};
}

use core::ffi::c_void;

/// What a call came to: the exit status of the command, and its text, which stands in front in the room. With status
/// [`WRITE_FAULT`] the room was too small, and is full of the text's front.
pub struct Answer<'a> {
    pub status: u8,
    pub text: &'a [u8],
}

pub const DONE: u8 = 0;
pub const WRITE_FAULT: u8 = 6;
pub const REFUSED: u8 = 8;
pub const NO_MEMORY: u8 = 9;

/// A slice as a pointer and a length.
macro_rules! bytes {
    ($slice:expr) => {
        ($slice.as_ptr().cast::<c_void>(), $slice.len())
    };
}

/// Makes a call with the room, and takes its text out of it.
fn answer(out: &mut [u8], call: impl FnOnce(*mut c_void, usize, *mut usize) -> i32) -> Answer<'_> {
    let mut written = 0;
    let status = call(out.as_mut_ptr().cast(), out.len(), &mut written) as u8;
    Answer { status, text: &out[..written] }
}

/// Where a host address goes: its window, position and host bridge.
pub fn route<'a>(cedt: &[u8], hpa: u64, out: &'a mut [u8]) -> Answer<'a> {
    let (c, c_len) = bytes!(cedt);
    // SAFETY: pointers and lengths are those of slices, of which the room alone is written, and they do not overlap.
    answer(out, |at, len, written| unsafe { raw::cxlplan_route(c, c_len, hpa, at, len, written) })
}

/// A line for each record of a table.
pub fn list<'a>(cedt: &[u8], out: &'a mut [u8]) -> Answer<'a> {
    let (c, c_len) = bytes!(cedt);
    // SAFETY: as in `route`.
    answer(out, |at, len, written| unsafe { raw::cxlplan_list(c, c_len, at, len, written) })
}

/// The table's bytes with its reserved fields zero.
pub fn normal<'a>(cedt: &[u8], out: &'a mut [u8]) -> Answer<'a> {
    let (c, c_len) = bytes!(cedt);
    // SAFETY: as in `route`.
    answer(out, |at, len, written| unsafe { raw::cxlplan_normal(c, c_len, at, len, written) })
}

/// The regions of a register image, or the first rule that it breaks.
pub fn check<'a>(cedt: &[u8], topo: &[u8], image: &[u8], out: &'a mut [u8]) -> Answer<'a> {
    let ((c, c_len), (t, t_len), (i, i_len)) = (bytes!(cedt), bytes!(topo), bytes!(image));
    // SAFETY: as in `route`.
    answer(out, |at, len, written| unsafe { raw::cxlplan_check(c, c_len, t, t_len, i, i_len, at, len, written) })
}

/// The registers that make the region of a create line after reset, or why there is none.
pub fn plan<'a>(cedt: &[u8], topo: &[u8], line: &str, out: &'a mut [u8]) -> Answer<'a> {
    let ((c, c_len), (t, t_len), (l, l_len)) = (bytes!(cedt), bytes!(topo), bytes!(line));
    // SAFETY: as in `route`.
    answer(out, |at, len, written| unsafe { raw::cxlplan_plan(c, c_len, t, t_len, l, l_len, at, len, written) })
}

/// What the lines of a script are answered, on the host after reset, or with the registers of an image.
pub fn run<'a>(cedt: &[u8], topo: &[u8], image: Option<&[u8]>, script: &[u8], out: &'a mut [u8]) -> Answer<'a> {
    let ((c, c_len), (t, t_len), (s, s_len)) = (bytes!(cedt), bytes!(topo), bytes!(script));
    let (i, i_len) = image.map_or((core::ptr::null(), 0), |image| bytes!(image));
    // SAFETY: as in `route`; null with length 0 stands for no image.
    answer(out, |at, len, written| unsafe { raw::cxlplan_run(c, c_len, t, t_len, i, i_len, s, s_len, at, len, written) })
}

/// The register words that the last line of a script sends, a line each: `w NODE OFFSET VALUE`.
pub fn words<'a>(cedt: &[u8], topo: &[u8], image: Option<&[u8]>, script: &[u8], out: &'a mut [u8]) -> Answer<'a> {
    let ((c, c_len), (t, t_len), (s, s_len)) = (bytes!(cedt), bytes!(topo), bytes!(script));
    let (i, i_len) = image.map_or((core::ptr::null(), 0), |image| bytes!(image));
    // SAFETY: as in `run`.
    answer(out, |at, len, written| unsafe { raw::cxlplan_words(c, c_len, t, t_len, i, i_len, s, s_len, at, len, written) })
}

/// The register image behind a script, as the bytes of its file.
pub fn image<'a>(cedt: &[u8], topo: &[u8], image: Option<&[u8]>, script: &[u8], out: &'a mut [u8]) -> Answer<'a> {
    let ((c, c_len), (t, t_len), (s, s_len)) = (bytes!(cedt), bytes!(topo), bytes!(script));
    let (i, i_len) = image.map_or((core::ptr::null(), 0), |image| bytes!(image));
    // SAFETY: as in `run`.
    answer(out, |at, len, written| unsafe { raw::cxlplan_image(c, c_len, t, t_len, i, i_len, s, s_len, at, len, written) })
}

/// A topology as lines: its frames and each node, also with what the file leaves to a default.
pub fn tree<'a>(topo: &[u8], out: &'a mut [u8]) -> Answer<'a> {
    let (t, t_len) = bytes!(topo);
    // SAFETY: as in `route`.
    answer(out, |at, len, written| unsafe { raw::cxlplan_tree(t, t_len, at, len, written) })
}

/// The decoder blocks of any image as lines, also of one that breaks a rule.
pub fn decoders<'a>(topo: &[u8], image: &[u8], out: &'a mut [u8]) -> Answer<'a> {
    let ((t, t_len), (i, i_len)) = (bytes!(topo), bytes!(image));
    // SAFETY: as in `route`.
    answer(out, |at, len, written| unsafe { raw::cxlplan_decoders(t, t_len, i, i_len, at, len, written) })
}

/// All places that break the rule which an image breaks first, as lines; none, with status 0, where no rule is broken.
pub fn breaches<'a>(cedt: &[u8], topo: &[u8], image: &[u8], out: &'a mut [u8]) -> Answer<'a> {
    let ((c, c_len), (t, t_len), (i, i_len)) = (bytes!(cedt), bytes!(topo), bytes!(image));
    // SAFETY: as in `route`.
    answer(out, |at, len, written| unsafe { raw::cxlplan_breaches(c, c_len, t, t_len, i, i_len, at, len, written) })
}

/// The windows of a table as lines, each with its verdict by the bridges of a topology.
pub fn windows<'a>(cedt: &[u8], topo: &[u8], out: &'a mut [u8]) -> Answer<'a> {
    let ((c, c_len), (t, t_len)) = (bytes!(cedt), bytes!(topo));
    // SAFETY: as in `route`.
    answer(out, |at, len, written| unsafe { raw::cxlplan_windows(c, c_len, t, t_len, at, len, written) })
}

/// The generated system of 4 * number endpoints, for a number from 1 to 32, carried out.
pub fn gen(number: u32, out: &mut [u8]) -> Answer<'_> {
    // SAFETY: as in `route`.
    answer(out, |at, len, written| unsafe { raw::cxlplan_gen(number, at, len, written) })
}

/// The version, as a line.
pub fn version(out: &mut [u8]) -> Answer<'_> {
    // SAFETY: as in `route`.
    answer(out, |at, len, written| unsafe { raw::cxlplan_version(at, len, written) })
}

/// A register word that a session sent.
#[repr(C)]
#[derive(Clone, Copy, Debug, Default, PartialEq, Eq)]
pub struct Word {
    /// The number of its node, as `tree` tells it.
    pub node: u32,
    /// Where it stands in the node's block of registers, in bytes.
    pub offset: u32,
    pub value: u32,
}

/// A name: its bytes from the front, and zeros behind them.
#[repr(C)]
#[derive(Clone, Copy, Debug, Default, PartialEq, Eq)]
pub struct Name {
    pub len: u8,
    pub bytes: [u8; 15],
}

impl Name {
    pub fn as_str(&self) -> &str {
        core::str::from_utf8(&self.bytes[..usize::from(self.len).min(15)]).unwrap_or("")
    }
}

/// A port on an address's way.
#[repr(C)]
#[derive(Clone, Copy, Debug, Default, PartialEq, Eq)]
pub struct Via {
    /// The number of its node, as `tree` tells it.
    pub node: u32,
    pub decoder: u16,
    /// The place in the decoder's target list.
    pub entry: u16,
}

/// Where a host address goes.
#[repr(C)]
#[derive(Clone, Copy, Debug, Default, PartialEq, Eq)]
pub struct Place {
    /// The device address.
    pub dpa: u64,
    /// The number of the endpoint's node.
    pub endpoint: u32,
    pub slot: u32,
    /// Its place among the window's targets.
    pub position: u32,
    /// How many of `via` are ports on its way, from the bridge down.
    pub via_count: u32,
    pub via: [Via; 5],
    pub region: Name,
}

/// The host address that goes to a byte of a device.
#[repr(C)]
#[derive(Clone, Copy, Debug, Default, PartialEq, Eq)]
pub struct HostByte {
    pub hpa: u64,
    pub region: Name,
}

/// Why a command was refused, by its number in `cxlplan.h`, with the numbers that the reply tells, none or two.
#[repr(C)]
#[derive(Clone, Copy, Debug, Default, PartialEq, Eq)]
pub struct Refusal {
    pub kind: u32,
    pub count: u32,
    pub first: u64,
    pub second: u64,
}

pub const NO_ENDPOINT: u32 = 5;
pub const FULL: u32 = 7;
pub const UNMAPPED: u32 = 10;
pub const CROSSES_END: u32 = 11;

/// A command that came to nothing: its status, [`REFUSED`], or 1 where a name or a number is none, or [`NO_MEMORY`], and why.
#[derive(Clone, Copy, Debug, PartialEq, Eq)]
pub struct Refused {
    pub status: u8,
    pub refusal: Refusal,
}

/// What a call with this refusal came to.
fn unless_refused<T>(status: i32, refusal: Refusal, told: T) -> Result<T, Refused> {
    match status as u8 {
        DONE => Ok(told),
        status => Err(Refused { status, refusal }),
    }
}

/// A session that is opened once and asked often. It closes when it is dropped.
pub struct Session {
    handle: raw::cxlplan_session,
}

// SAFETY: sessions share nothing, and a handle may be used from any thread, by one call at a time.
unsafe impl Send for Session {}

impl Session {
    /// Opens a session as `run` does before its first line, on the host after reset, or with the registers of an image. Where none
    /// opens, the answer says why.
    pub fn open<'a>(cedt: &[u8], topo: &[u8], image: Option<&[u8]>, out: &'a mut [u8]) -> Result<Session, Answer<'a>> {
        let ((c, c_len), (t, t_len)) = (bytes!(cedt), bytes!(topo));
        let (i, i_len) = image.map_or((core::ptr::null(), 0), |image| bytes!(image));
        let mut session = Session { handle: raw::cxlplan_session { held: core::ptr::null_mut() } };
        let handle: *mut _ = &mut session.handle;
        // SAFETY: as in `run`; the handle is null, and apart from the slices.
        let told = answer(out, |at, len, written| unsafe { raw::cxlplan_session_open(handle, c, c_len, t, t_len, i, i_len, at, len, written) });
        if told.status == DONE {
            return Ok(session);
        }
        Err(told)
    }

    /// Carries out lines, one or more, and tells their replies as `run` does. With status [`WRITE_FAULT`] the lines up to the reply
    /// that is cut are carried out, and none behind it.
    pub fn act<'a>(&mut self, lines: &[u8], out: &'a mut [u8]) -> Answer<'a> {
        let (l, l_len) = bytes!(lines);
        let handle: *mut _ = &mut self.handle;
        // SAFETY: as in `route`; this handle alone names the session.
        answer(out, |at, len, written| unsafe { raw::cxlplan_session_act(handle, l, l_len, at, len, written) })
    }

    /// How many register words the last lines sent; as many of them as there are rows for are put there, from the first on.
    pub fn words(&mut self, rows: &mut [Word]) -> usize {
        let mut count = 0;
        // SAFETY: as in `act`.
        unsafe { raw::cxlplan_session_words(&mut self.handle, rows.as_mut_ptr(), rows.len(), &mut count) };
        count
    }

    /// The register image as it is, as the bytes of its file.
    pub fn image<'a>(&mut self, out: &'a mut [u8]) -> Answer<'a> {
        let handle: *mut _ = &mut self.handle;
        // SAFETY: as in `act`.
        answer(out, |at, len, written| unsafe { raw::cxlplan_session_image(handle, at, len, written) })
    }

    /// Where a host address goes.
    pub fn down(&mut self, hpa: u64) -> Result<Place, Refused> {
        let (mut place, mut refusal) = (Place::default(), Refusal::default());
        // SAFETY: as in `act`; the records are this call's own.
        let status = unsafe { raw::cxlplan_session_down(&mut self.handle, hpa, &mut place, &mut refusal) };
        unless_refused(status, refusal, place)
    }

    /// Which host address goes to a byte of an endpoint's device.
    pub fn up(&mut self, endpoint: &str, dpa: u64) -> Result<HostByte, Refused> {
        let ((name, len), mut byte, mut refusal) = (bytes!(endpoint), HostByte::default(), Refusal::default());
        // SAFETY: as in `down`.
        let status = unsafe { raw::cxlplan_session_up(&mut self.handle, name, len, dpa, &mut byte, &mut refusal) };
        unless_refused(status, refusal, byte)
    }

    /// Fills a slice, of 1 to 256 bytes, with those from a host address on.
    pub fn load(&mut self, hpa: u64, bytes: &mut [u8]) -> Result<(), Refused> {
        let mut refusal = Refusal::default();
        // SAFETY: as in `down`.
        let status = unsafe { raw::cxlplan_session_load(&mut self.handle, hpa, bytes.as_mut_ptr().cast(), bytes.len(), &mut refusal) };
        unless_refused(status, refusal, ())
    }

    /// Puts bytes, 1 to 256 of them, from a host address on.
    pub fn store(&mut self, hpa: u64, bytes: &[u8]) -> Result<(), Refused> {
        let ((at, len), mut refusal) = (bytes!(bytes), Refusal::default());
        // SAFETY: as in `down`.
        let status = unsafe { raw::cxlplan_session_store(&mut self.handle, hpa, at, len, &mut refusal) };
        unless_refused(status, refusal, ())
    }
}

impl Drop for Session {
    fn drop(&mut self) {
        // SAFETY: as in `act`; nothing names the session behind this.
        unsafe { raw::cxlplan_session_close(&mut self.handle) };
    }
}
