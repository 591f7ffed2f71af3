//! Calls of the firmware with guard bytes around every area and image.
use crate::firmware;
use second::call::Call;

/// What a call left behind.
#[derive(Debug, PartialEq)]
pub struct Left {
    pub result: u8,
    pub values: [u64; 4],
    pub workspace: Vec<u8>,
    pub answer: Vec<u8>,
}

const GUARD: usize = 32;

/// Bytes between two guards.
struct Guarded {
    bytes: Vec<u8>,
    before: Vec<u8>,
}

impl Guarded {
    fn new(content: &[u8]) -> Guarded {
        let guard = |k: usize| (k as u8).wrapping_mul(167) ^ 0xA5;
        let bytes: Vec<u8> = (0..GUARD).map(guard).chain(content.iter().copied()).chain((0..GUARD).map(guard)).collect();
        Guarded { before: bytes.clone(), bytes }
    }

    fn end(&self) -> usize {
        self.bytes.len() - GUARD
    }

    fn content(&self) -> &[u8] {
        &self.bytes[GUARD..self.end()]
    }

    fn lent(&mut self) -> &mut [u8] {
        let end = self.end();
        &mut self.bytes[GUARD..end]
    }

    fn guards_hold(&self) -> bool {
        let end = self.end();
        self.bytes[..GUARD] == self.before[..GUARD] && self.bytes[end..] == self.before[end..]
    }

    fn unchanged(&self) -> bool {
        self.bytes == self.before
    }
}

/// Calls the firmware. An error names what was written that may not be.
pub fn call(call: &Call, workspace: &[u8], answer: &[u8]) -> Result<Left, String> {
    let images: Vec<Guarded> = call.images().into_iter().map(|(_, image)| Guarded::new(image)).collect();
    let image = |k: usize| images[k].content();
    let (mut work, mut out) = (Guarded::new(workspace), Guarded::new(answer));
    let (w, o) = (work.lent(), out.lent());
    let (result, values) = match call {
        Call::Reverse { allowance, .. } => firmware::reverse(image(0), image(1), *allowance, w, o),
        Call::LeftReverse { allowance, .. } => firmware::left_reverse(image(0), image(1), *allowance, w, o),
        Call::Enquire { allowance, .. } => firmware::enquire(image(0), image(1), *allowance, w),
        Call::Commit { allowance, numbers, .. } => firmware::commit(image(0), image(1), *allowance, *numbers, w, o),
        Call::Clear { allowance, .. } => firmware::clear(image(0), *allowance, w),
        Call::MirrorClear { allowance, .. } => firmware::mirror_clear(image(0), *allowance, w),
        Call::Compare { allowance, .. } => firmware::compare(image(0), image(1), image(2), *allowance, w),
        Call::CompareSigned { allowance, .. } => firmware::compare_signed(image(0), image(1), image(2), *allowance, w),
        Call::Chain { allowance, .. } => firmware::chain(image(0), image(1), image(2), *allowance, w, o),
        Call::Remainder { allowance, .. } => firmware::remainder(image(0), image(1), image(2), *allowance, w, o),
        Call::Tray { allowance, .. } => firmware::tray(image(0), image(1), image(2), *allowance, w, o),
        Call::Check { .. } => firmware::check(image(0), image(1), image(2), image(3), w),
        Call::PackTable { .. } => firmware::pack_table(image(0), o),
        Call::UnpackTable { .. } => firmware::unpack_table(image(0), o),
        Call::PackProgram { .. } => firmware::pack_program(image(0), image(1), o),
        Call::UnpackProgram { .. } => firmware::unpack_program(image(0), image(1), o),
        Call::Bed { moves, .. } => firmware::bed(image(0), image(1), *moves, o),
        Call::Ways { .. } => firmware::ways(image(0), image(1), o),
        Call::Import { .. } => firmware::import(image(0), image(1), o),
    };
    if !images.iter().all(Guarded::unchanged) {
        return Err("an image, or bytes around it, changed".into());
    }
    if !work.guards_hold() {
        return Err("bytes around the workspace changed".into());
    }
    if !out.guards_hold() {
        return Err("bytes around the answer area changed".into());
    }
    Ok(Left { result, values, workspace: work.content().to_vec(), answer: out.content().to_vec() })
}
