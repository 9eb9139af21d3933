//! What a practice holds, in a file. A state is never written over another: after a cut the file could
//! be a mixture of both, which reads, and is no state of the log.

use std::path::Path;

use super::super::{held_read, held_write, Answer, Held, HELD_BYTES, HELD_FILE_MOST};
use super::whole::{first_bytes, put, Before};
use super::{done, Error};

/// Saves what a practice holds, and returns when it is safe on the disk. Its file is made beside the
/// one that is there, under its name and `.saving`, and takes its place when all of it is safe: at
/// every moment the name stands for the state that was saved before, or for this one, whole. Refusals:
/// 2, and then nothing on the disk is touched.
///
/// That another process is saving there is an error of the system, of the kind `WouldBlock`. After an
/// error of the system what was saved before is as it was, and nothing of the attempt is left. Only
/// where the last flush failed, which makes the name safe, the name stands for the new state, and on
/// the disk for either.
#[inline]
pub fn save_held(path: &Path, held: &Held) -> Result<(), Error> {
    Ok(put(path, &file_of(held)?, Before::Anything)?)
}

/// Saves what a practice holds where there is no file yet; one that is there is an error, of the kind
/// `AlreadyExists`, and stays as it is. Otherwise as [`save_held`].
#[inline]
pub fn create_held(path: &Path, held: &Held) -> Result<(), Error> {
    Ok(put(path, &file_of(held)?, Before::Nothing)?)
}

/// Saves a state in the place of the one that it came from. If the file holds another by now, since
/// some other process has saved there meanwhile, that is an error of the system and the file stays as
/// it is: so no state is ever replaced by one that knows less. Otherwise as [`save_held`].
#[inline]
pub fn replace_held(path: &Path, before: &Held, held: &Held) -> Result<(), Error> {
    Ok(put(path, &file_of(held)?, Before::These(&file_of(before)?))?)
}

/// Reads what was saved. Refusals: 18, 19, 20, 21, 22, 2.
///
/// Of a file that is too long no more is read than shows it. The library answers the same for that as
/// for all: the mark, the version and the count stand in the first 53 bytes, and if they are in order
/// the length is refused, since no count has one over the most.
#[inline]
pub fn load_held(path: &Path) -> Result<Held, Error> {
    let bytes = first_bytes(path, HELD_FILE_MOST + 1)?;
    let mut held = [0; HELD_BYTES];
    done(Answer { number: held_read(&bytes, &mut held), beside: [0; 3] })?;
    Ok(held)
}

/// The file of a state.
#[inline]
fn file_of(held: &Held) -> Result<Vec<u8>, Error> {
    let mut bytes = vec![0; HELD_FILE_MOST];
    let length = done(held_write(held, &mut bytes))?;
    bytes.truncate(length as usize);
    Ok(bytes)
}
