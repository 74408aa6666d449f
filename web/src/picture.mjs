// The Sun and the Moon, or the Moon and a star, as on the sky: north up and east to the left, or turned so that the
// zenith is up.
//
// The fundamental plane is at right angles to the line from the Moon's centre to the Sun's, x to the east and y to the
// north; the station is at (xi, eta) in it, the line at (x, y). Seen from the station the Moon's centre lies u = x - xi
// to the east and v = y - eta to the north of the Sun's, in the scale in which L1, where the limbs touch from outside,
// is the sum of the two radii and L2 the Sun's less the Moon's. So the Sun's radius is (L1 + L2)/2, the Moon's (L1 -
// L2)/2, and the direction on the sheet, that of (u, v) from north through east, is where the Moon's centre is from the
// Sun's. East is to the left, so x of the drawing is -u; a drawing's y goes down, so it is -v.
import { svg, rounded } from "./svg.mjs";
import { TEXTS } from "./texts.mjs";
import { UP } from "./seen.mjs";

const SIZE = 200;
const CENTRE = SIZE / 2;
const SUN = 33; // its radius: at first and last contact the whole Moon is in the picture
const MOON = 60; // the Moon's, behind which a star goes

// East and north turned so that the direction that is up, in tenths of a degree from north through east, is up.
function turned(east, north, up) {
  const angle = (up * Math.PI) / 1800;
  const [sine, cosine] = [Math.sin(angle), Math.cos(angle)];
  return [east * cosine - north * sine, east * sine + north * cosine];
}

// The point of the Sun's limb where the Moon's touches it, as a direction from the Sun's centre: towards the Moon's
// centre, and away from it where the Moon hides the whole Sun.
function touchingPoint(u, v, total, phase) {
  const distance = Math.hypot(u, v) || 1;
  const side = phase === "central" && total ? -1 : 1;
  return [(side * u) / distance, (side * v) / distance];
}

// Whether the Moon hides the whole Sun.
const isCovered = ({ u, v, sun, moon }) => Math.hypot(u, v) <= moon - sun;

// Letters at the rim: N and E, and where the zenith is up, its word above and N where north lies.
function compass(up, isTurned) {
  const { north, east } = TEXTS.picture;
  const letter = (words, [a, b]) =>
    svg(
      "text",
      { class: "compass", x: rounded(CENTRE - a * 88), y: rounded(CENTRE - b * 86 + 6), "text-anchor": "middle" },
      words,
    );
  const rim = [letter(north, turned(0, 1, up)), letter(east, turned(1, 0, up))];
  return isTurned ? [...rim, svg("path", { class: "zenith", d: `M${CENTRE} 4 l6 11 h-12 z` })] : rim;
}

const disc = (name, x, y, r) => svg("circle", { class: name, cx: rounded(x), cy: rounded(y), r: rounded(r) });

// A wedge at the touching point: in the Sun's disc where the Moon comes from outside, else outside of it.
function wedge([east, north], inside) {
  const [tip, end] = inside ? [SUN - 1, SUN - 17] : [SUN + 4, SUN + 22];
  const at = (r, side) => `${rounded(CENTRE - east * r + north * side)},${rounded(CENTRE - north * r - east * side)}`;
  return svg(
    "polygon",
    { class: inside ? "pointer inside" : "pointer", points: [at(tip, 0), at(end, 5), at(end, -5)].join(" ") },
  );
}

function sunAndMoon(place, entry, up) {
  const { sun, moon } = place;
  const scale = SUN / sun;
  const [u, v] = turned(place.u, place.v, up);
  const contact = entry.name === "enter" || entry.name === "leave";
  return [
    ...(
      isCovered(place) ? [
        disc("corona outer", CENTRE, CENTRE, SUN * 1.75),
        disc("corona", CENTRE, CENTRE, SUN * 1.35),
      ] : []
    ),
    disc("sun", CENTRE, CENTRE, SUN),
    disc("moon", CENTRE - u * scale, CENTRE - v * scale, moon * scale),
    disc("limb", CENTRE, CENTRE, SUN),
    ...(contact ? [wedge(touchingPoint(u, v, place.total, entry.phase), entry.phase === "penumbra")] : []),
  ];
}

// For a star the Moon stands still: the star lies -u to the east and -v to the north of its centre.
function moonAndStar(place, up) {
  const scale = MOON / place.moon;
  const [u, v] = turned(place.u, place.v, up);
  const [x, y] = [CENTRE + u * scale, CENTRE + v * scale];
  return [disc("moon", CENTRE, CENTRE, MOON), disc("star-halo", x, y, 8), disc("star", x, y, 4)];
}

export function picture(row, star, label, zenithUp) {
  const id = `clip${row.number}`;
  const isTurned = zenithUp && row.horizon.zenith !== null;
  const up = isTurned ? row.horizon.zenith : 0;
  const bodies = star ? moonAndStar(row.place, up) : sunAndMoon(row.place, row.entry, up);
  const night = star || row.horizon.altitude < UP;
  const covered = !star && isCovered(row.place);
  const names = ["picture", ...(night ? ["night"] : covered ? ["totality"] : [])].join(" ");
  return svg(
    "svg",
    { viewBox: `0 0 ${SIZE} ${SIZE}`, role: "img", "aria-label": label, class: names },
    svg("clipPath", { id }, svg("rect", { width: SIZE, height: SIZE, rx: 8 })),
    svg(
      "g",
      { "clip-path": `url(#${id})` },
      svg("rect", { class: "sky", width: SIZE, height: SIZE }),
      bodies,
      compass(up, isTurned),
    ),
  );
}
