//! The functions of the static libraries, and safe ones over them. No other file has `unsafe`.

extern "C" {
    fn vealtikum_read(
        source: *const u8,
        source_len: usize,
        nodes: *mut u16,
        nodes_len: usize,
        text: *mut u8,
        text_len: usize,
        place: *mut usize,
        count: *mut usize,
        used: *mut usize,
    ) -> u8;

    fn vealtikum_check(source: *const u8, source_len: usize, nodes: *const u16, nodes_len: usize, text: *const u8, text_len: usize) -> bool;

    fn vealtikum_text(
        source: *const u8,
        source_len: usize,
        nodes: *const u16,
        nodes_len: usize,
        text: *const u8,
        text_len: usize,
        i: usize,
        from: *mut usize,
        length: *mut usize,
    ) -> u8;
}

/// The four numbers of an answer.
pub(crate) struct Numbers {
    pub kind: u8,
    pub place: usize,
    pub nodes: usize,
    pub text: usize,
}

pub(crate) fn read(source: &[u8], nodes: &mut [u16], text: &mut [u8]) -> Numbers {
    let (mut place, mut count, mut used) = (0, 0, 0);
    // SAFETY: pointers and lengths are those of slices, and what is written is borrowed for the call alone.
    let kind = unsafe {
        vealtikum_read(source.as_ptr(), source.len(), nodes.as_mut_ptr(), nodes.len(), text.as_mut_ptr(), text.len(), &mut place, &mut count, &mut used)
    };
    Numbers { kind, place, nodes: count, text: used }
}

pub(crate) fn check(source: &[u8], nodes: &[u16], text: &[u8]) -> bool {
    // SAFETY: as above; nothing is written.
    unsafe { vealtikum_check(source.as_ptr(), source.len(), nodes.as_ptr(), nodes.len(), text.as_ptr(), text.len()) }
}

/// The text of the i-th record: a part of the source or of the text.
pub(crate) fn text<'a>(source: &'a [u8], nodes: &[u16], text: &'a [u8], i: usize) -> Option<&'a [u8]> {
    let (mut from, mut length) = (0, 0);
    // SAFETY: as above.
    let side = unsafe { vealtikum_text(source.as_ptr(), source.len(), nodes.as_ptr(), nodes.len(), text.as_ptr(), text.len(), i, &mut from, &mut length) };
    match side {
        0 => None,
        1 => source.get(from..from + length),
        _ => text.get(from..from + length),
    }
}
