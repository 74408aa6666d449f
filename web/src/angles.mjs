// Angles of a contact and of the sky as they are shown: tenths of a degree, as the library gives them.

const CIRCLE = 3_600;
const wrapped = (tenths) => ((tenths % CIRCLE) + CIRCLE) % CIRCLE;

export const degreesText = (tenths) => `${tenths < 0 ? "\u2212" : ""}${(Math.abs(tenths) / 10).toFixed(1)}`;

// The point of contact as seen from the middle of the Sun, or of the Moon for a star, and where the Moon's centre lies
// where that is another direction: { north, zenith, moon: { north, zenith } or null }; null where the sheet has no
// direction. The direction on the sheet is that of the Moon's centre from the Sun's. The limbs touch on that side, but
// at second and third contact of a total eclipse, where the Moon hides the whole Sun, on the opposite one; and a star
// touches the Moon's limb there, too.
export function contactAngles({ entry, place, horizon }) {
  if (entry.direction === null) return null;
  const fromZenith = (direction) => (horizon.zenith === null ? null : wrapped(direction - horizon.zenith));
  const opposite = entry.phase === "star" || (entry.phase === "central" && place.total);
  const north = opposite ? wrapped(entry.direction + CIRCLE / 2) : entry.direction;
  const moon = opposite && entry.phase !== "star" ? {
    north: entry.direction,
    zenith: fromZenith(entry.direction),
  } : null;
  return { north, zenith: fromZenith(north), moon };
}

// The name of the side that an azimuth points to, of eight.
export const sideOf = (azimuth, sides) => sides[Math.round(azimuth / 450) % 8];
