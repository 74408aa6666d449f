use crate::{ffi, Phase, Refusal};

/// Two hundredths of a second from the reference instant, between which a contact lies.
///
/// At the earlier the station is truly on the side of the first of the two seconds, at the later truly on that of the
/// second: by Bessel's formulas with nothing rounded, for circular limbs, the elements as given, and the station on
/// Krasovsky's spheroid. Limb, refraction and the elements' own errors are not in it.
#[derive(Clone, Copy, Debug, PartialEq, Eq, Hash)]
pub struct Bracket {
    /// -1,080,000 to 1,080,000.
    pub earlier: i64,
    /// Later than that.
    pub later: i64,
}

/// Where the contact of a phase between two seconds of a request lies, such as those of an enter or a leave:
/// -10,800 ≤ from ≤ to ≤ 10,800, also outside its window.
///
/// One of the two seconds must be surely outside and the other surely inside, under the larger of the request's guard and
/// 32; of a sheet with a guard of 32 or more every enter and leave is so.
///
/// Refusals, the first of them: 10, 1 (for the window or the two seconds, then for the guard), 2, 3, 22; an eclipse has no
/// phase of a star.
///
/// ```
/// use ukhtvaresh::{contact, Bracket, Phase, Refusal};
///
/// let hopkinsville = include_bytes!("../../examples/hopkinsville2017.bin"); // its guard is 100
/// let second_contact = contact(hopkinsville, Phase::Central, 1_550, 1_551)?;
/// assert_eq!(second_contact, Bracket { earlier: 155_018, later: 155_021 });
/// # Ok::<(), Refusal>(())
/// ```
pub fn contact(request: &[u8], phase: Phase, from: i64, to: i64) -> Result<Bracket, Refusal> {
    let phase = match phase {
        Phase::Penumbra => 0,
        Phase::Central => 1,
        Phase::Star => 2,
    };
    ffi::contact(request, phase, from, to).map(bracket)
}

/// The same of the star of a star request.
///
/// Refusals, the first of them: 10, 1 (for the window or the two seconds, then for the guard), 2, 13, 3, 22.
pub fn star_contact(request: &[u8], from: i64, to: i64) -> Result<Bracket, Refusal> {
    ffi::star_contact(request, 0, from, to).map(bracket)
}

fn bracket([earlier, later]: [i64; 2]) -> Bracket {
    Bracket { earlier, later }
}
