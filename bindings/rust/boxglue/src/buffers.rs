//! The buffers of calls, which grow if they are too small.

use crate::{Error, Font};
use boxglue_sys as sys;

/// The sizes of the first buffers.
pub(crate) const TEXT_ROOM: usize = 1 << 14;
pub(crate) const DVI_ROOM: usize = 1 << 16;
pub(crate) const FONT_ROOM: usize = 64;
/// The most bytes that the name of a font in a DVI file has.
pub(crate) const NAME_ROOM: usize = 255;

/// The buffer for the file of a script, which is rarely longer than two times the script; if it is, the script is run again.
pub(crate) fn dvi_room(script: &[u8]) -> usize {
    DVI_ROOM.max(2 * script.len())
}

/// The room for the answers to a script. Few lines of them are longer than 64 bytes.
pub(crate) fn answers_room(lines: usize) -> usize {
    TEXT_ROOM.max(64 * lines)
}

/// The fonts as C takes them.
pub(crate) fn given(fonts: &[Font<'_>]) -> Vec<sys::boxglue_font> {
    let font = |it: &Font<'_>| sys::boxglue_font { name: it.name.as_ptr(), name_size: it.name.len(), bytes: it.metrics.as_ptr(), bytes_size: it.metrics.len() };
    fonts.iter().map(font).collect()
}

/// A buffer of so many items, each of which is this one.
pub(crate) fn buffer<T: Clone>(room: usize, item: T) -> Result<Vec<T>, Error> {
    let mut made = Vec::new();
    made.try_reserve_exact(room).map_err(|_| Error::OutOfMemory)?;
    made.resize(room, item);
    Ok(made)
}

/// A text of the library, which is ASCII.
pub(crate) fn text(bytes: Vec<u8>) -> String {
    String::from_utf8(bytes).expect("a text of the library is ASCII")
}

/// The status and the output of a call with one buffer, which is made again if the buffer is too small.
pub(crate) fn one_output(mut room: usize, mut call: impl FnMut(*mut u8, usize, &mut usize) -> u32) -> Result<(u32, Vec<u8>), Error> {
    loop {
        let (mut made, mut size) = (buffer(room, 0)?, 0);
        match call(made.as_mut_ptr(), room, &mut size) {
            sys::BOXGLUE_BUFFER_TOO_SMALL => room = size,
            status @ (sys::BOXGLUE_ACCEPTED | sys::BOXGLUE_REFUSED) => {
                made.truncate(size);
                return Ok((status, made));
            }
            other => return Err(Error::of(other)),
        }
    }
}

/// The text of such a call. A refusal is an error.
pub(crate) fn one_text(room: usize, call: impl FnMut(*mut u8, usize, &mut usize) -> u32) -> Result<String, Error> {
    match one_output(room, call)? {
        (sys::BOXGLUE_ACCEPTED, bytes) => Ok(text(bytes)),
        (_, bytes) => Err(Error::refused(&text(bytes))),
    }
}

#[cfg(test)]
mod tests {
    use super::{answers_room, dvi_room, DVI_ROOM, TEXT_ROOM};
    use crate::{run, run_text};

    /// The file and the answers of a script above the least rooms fit into the first buffers, so it is run once.
    #[test]
    fn a_long_script_is_run_once() {
        let script = "hbox into 0\nrule 1pt 1pt 0pt\nend\nship 0\n".repeat(3_000);
        let (ran, texts) = (run(&script, &[]).unwrap(), run_text(&script, &[]).unwrap());
        assert!(ran.dvi.len() > DVI_ROOM && ran.dvi.len() <= dvi_room(script.as_bytes()));
        assert!(texts.answers.len() > TEXT_ROOM && texts.answers.len() <= answers_room(script.lines().count()));
    }
}
