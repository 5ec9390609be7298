//! Images from the time when twins were accepted.

use crate::{answer, raw, Refusal};

/// Writes an image without its twins to the front of a buffer, and gives that new image.
///
/// Twins are groups with the same members. Of each such set the lowest stays and the others go, later groups move down,
/// and rules and constraints, which keep their own numbers, name the groups by their new ones. Every query gets the
/// answer that it got before, once its groups are changed to their new numbers: a group's is that of the group in the
/// new image with its members. An image without twins comes out byte for byte.
///
/// The image is checked as [`check`](crate::check) does it, but for twins, which this function alone takes. A buffer as
/// long as the image is always enough; what is wanted is the length of the new one. Bytes past the new image stay as
/// they were, and a refusal leaves every byte as it was.
///
/// ```
/// use mungaite::{build, check, convert, decide, group, Cause, Decision, Query};
///
/// // The image of `group 7`, `group 7`, `group 8` and `allow g1 g2 5 1 on`.
/// let old = [
///     1, 0, 32, 0, 3, 0, 1, 0, 0, 4, 1, 0, 7, 4, 1, 0, 7, 4, 1, 0, 8, 11, 2, 128, 1, 128, 2, 0, 5, 0, 1, 1,
/// ];
/// assert_eq!(check(&old).unwrap_err().cause(), Some(Cause::Twin));
///
/// let mut buffer = [77; 32];
/// let new = convert(&old, &mut buffer).unwrap();
/// assert_eq!(new, build(b"group 7\ngroup 8\nallow g0 g1 5 1 on\n", &mut [0; 32]).unwrap());
/// assert_eq!(decide(new, Query::new(group(0), group(1), 5, 1)), Ok(Decision::Permitted { rule: 0 }));
/// assert_eq!(buffer[28..], [77; 4]);
///
/// assert_eq!(convert(&old, &mut [0; 28]).map(<[u8]>::len), Ok(28));
/// assert_eq!(convert(&old, &mut [0; 27]).unwrap_err().cause(), Some(Cause::ShortBuffer));
/// ```
pub fn convert<'b>(image: &[u8], buffer: &'b mut [u8]) -> Result<&'b [u8], Refusal> {
    // SAFETY: each pointer and length are those of one slice, and a slice that may be written overlaps no other.
    let answer = unsafe { raw::mungaite_convert(image.as_ptr(), image.len(), buffer.as_mut_ptr(), buffer.len()) };
    answer::converted(answer, buffer).map(|length| &buffer[..length])
}
