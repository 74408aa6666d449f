// Every word that the page shows, in English. A page in another language is this file in another language.

const NAMES = {
  station: "the station's number",
  latitude: "the latitude",
  longitude: "the longitude",
  height: "the height",
  "delta t": "\u0394T",
  first: "the window's first second",
  last: "the window's last second",
  guard: "the guard",
  radius: "the Moon's radius",
};
const named = (name) => NAMES[name] ?? name;
const starting = (words) => words[0].toUpperCase() + words.slice(1);

export const ENGLISH = {
  language: "English",
  locale: "en-GB",
  title: "Solar eclipses at your place",
  lead:
    "Pick an eclipse, pick a place, see what you will see. Everything is computed here, in your browser and " +
    "without a " +
    "network, by a library whose every answer is proved.",
  skip: "Skip to the sheet",
  languages: "Language",
  failed: "The page could not start: ",
  cities: {}, // names that differ from tzdata's

  choose: {
    eclipse: "Eclipse",
    eclipseHint: "Type a year or a month, such as 2027 or 1999-08",
    place: "Place",
    placeHint: "A city, or coordinates such as 43.37, \u22128.40",
    nothing: "Nothing fits what is typed",
    coming: "Coming",
    past: "Past",
    device: "Use my location",
    deviceWait: "Asking for the location \u2026",
    deviceFailed: "The browser gave no location.",
    deviceName: "My location",
    pointed: "Place on the map",
    pasted: "These coordinates",
    height: "Height, m",
    zone: "Time zone",
    zoneOfBrowser: (zone) => `this device's (${zone})`,
    ownText: "Own text",
  },
  kinds: { P: "Partial", A: "Annular", T: "Total", H: "Hybrid" },
  goes: (countries, more) => countries.join(", ") + (more ? " \u2026" : ""),
  goesNowhere: (country) => `far from cities; most in ${country}`,

  options: {
    title: "Options",
    radii: "Radii of Sun and Moon",
    document02: "document 02 (k 0.272274)",
    iau: "IAU (k 0.2725076, 0.272281)",
    radiiHint:
      "k is the Moon's radius in the Earth's. Take the IAU's two, for outer and inner contacts, to compare with " +
      "published times: " +
      "the eclipse then begins earlier and ends later, by 2.3 s in the median.",
    deltaT: "\u0394T, s",
    deltaTHint: (seconds, source) =>
      `The catalogue has ${seconds} s, ${source}. A second more moves a contact by some 1.2 s in universal time ` +
        "(median; 7 s for 1 in 100).",
    sources: { O: "observed", X: "extrapolated", F: "a forecast that may be off by seconds or more" },
    guard: "Guard, units of 6.4 cm",
    guardHint:
      "How near to the shadow's edge nothing is said. From 32 (2 m) on, what the sheet says is proved of Bessel's " +
        "formulas with nothing rounded.",
    reset: "As the catalogue has it",
  },

  map: {
    title: "Where it is seen",
    label:
      "Map of the world, coloured by the largest magnitude seen with the Sun up. Arrow keys move the cross, plus " +
      "and minus zoom, Enter takes the place.",
    hint: "Click to take a place; drag to move; the buttons, + and \u2212, or Ctrl and the wheel zoom.",
    closer: "Zoom in",
    farther: "Zoom out",
    whole: "Whole world",
    none: "nothing seen",
    annular: "annular",
    total: "total",
    legend: "Largest magnitude with the Sun up",
    working: "computing \u2026",
    done: (cells, seconds, degrees) =>
      `${cells} sheets in ${seconds} s; cells of ${degrees}\u00b0, finer along the path`,
    cross: (latitude, longitude) => `Cross at ${latitude}, ${longitude}`,
    star: "There is no map of a star behind the Moon.",
  },

  // of a typed text
  own: {
    title: "Your own elements, or a star: the request as text",
    example: "Example",
    ownText: "own text",
    typed: "Request",
    typedHint:
      "One name and value a line; # starts a comment. A text that names a radius is one of a star behind the Moon.",
    fields: {
      title: "Title of the sheet",
      instant: "Date and time of second 0",
      station: "Number",
      latitude: "Latitude, \u00b0 north",
      longitude: "Longitude, \u00b0 east",
      height: "Height, m",
      "delta t": "\u0394T, s",
    },
    instantHint: "as 2017-08-21 18:00:00 ET, or UT",
  },

  take: {
    print: "Print or PDF",
    link: "Copy a link",
    linked: "Copied: a link to this sheet.",
    notCopied: "Nothing was copied: this browser does not allow it. The link is in the address bar.",
    contacts: "Contacts (CSV)",
    curve: "Curve (CSV)",
    minutes: "by minutes",
    seconds: "by seconds",
    calendar: "Calendar (ICS)",
    text: "Request (text)",
    bytes: "Request (bytes)",
    sheetBytes: "Sheet (bytes)",
    more: "Take it along",
    saved: (name) => `Saved as ${name}.`,
    calendarNote: "Computed for these elements; limb, refraction and the elements' own errors are not in it.",
  },

  // of the sheet
  sheetTitle: (date, place) => `Solar eclipse of ${date}: ${place}`,
  sheet: {
    untitled: (station) => `Station ${station}`,
    // of the sheet's head, one after the other
    station: (number) => `station ${number}`,
    latitude: (degrees, south) => `${degrees}\u00b0 ${south ? "S" : "N"}`,
    longitude: (degrees, west) => `${degrees}\u00b0 ${west ? "W" : "E"}`,
    height: (metres) => `${metres} m`,
    deltaT: (seconds) => `\u0394T ${seconds} s`,
    guard: (units, metres) => `guard ${units} (${metres} m)`,
    radii: { document02: "radii of document 02", iau: "radii of the IAU" },
    instant: (words) => `second 0 is ${words}`,
    noInstant: "no instant is given, so times are seconds from the elements' own",
    window: (first, last) => `window ${first} to ${last} s`,
    rows: "Contacts",
    scales: "Show times in",
    pictures: "As on the sky",
    up: "Up in the pictures",
    northUp: "north",
    zenithUp: "zenith",
    picturesHint: (zenith) =>
      `${zenith ? "Zenith up, as the eye sees it" : "North up, east to the left"}. The wedge shows where on the ` +
      "Sun's edge the Moon's touches it." +
      " A dark sky: the Sun is down.",
    picturesHintStar: (zenith) =>
      `${zenith ? "Zenith up" : "North up, east to the left"}; the Moon stands still and the star goes behind it.`,
    morePictures: (count) => `and ${count} more`,
    curve: "Magnitude and covered share",
    legend: { magnitude: "magnitude", share: "covered share of the disc", night: "Sun down" },
    listing: "The sheet as listed",
    foot: (star, clock) =>
      [
        clock
          ? "A contact lies between the two times given, which are rounded outward."
          : "A contact lies between the two seconds given.",
        "True for these elements; limb, refraction and the elements' own errors are not in it.",
        "Angles at a contact: of the point where the limbs touch, seen from the middle of " +
          `${star ? "the Moon" : "the Sun"}; from north through east, and from the zenith the same way.`,
        ...(star ? [] : ["Axis closest: the shadow's axis is nearest, within some 16 s of the greatest magnitude."]),
        "Altitude of the centre without refraction; down below \u22120.8\u00b0. Circular limbs. Latitude is " +
          "geodetic on Krasovsky's spheroid.",
        ...(
          clock ? ["UT is universal time by the Earth's rotation, UTC what a GPS clock shows, ET ephemeris time."] : []
        ),
      ].join(" "),
  },

  // what is said at the head of a sheet
  verdict: {
    none: "No eclipse here: the Moon's shadow passes by.",
    down: "Nothing is seen here: the Sun is below the horizon during the whole eclipse.",
    partial: (percent, time) => `Partial eclipse: at most ${percent} of the Sun's diameter is covered${time}.`,
    partialAtHorizon: (percent, time) =>
      `Partial eclipse: ${percent} of the Sun's diameter is covered when the Sun ${time}.`,
    total: (duration, time) => `Total eclipse: totality${duration}${time}.`,
    annular: (duration, time) => `Annular eclipse: the ring${duration}${time}.`,
    lasts: (duration) => ` lasts ${duration}`,
    at: (time, altitude) => `, at ${time} with the Sun ${altitude} high`,
    rises: "rises",
    sets: "sets",
    star: "The star goes behind the Moon.",
    noStar: "The star does not go behind the Moon here.",
    starDown: "The star is below the horizon throughout.",
  },
  notes: {
    begun: "The eclipse was under way when the window began: its beginning lies before the first second.",
    goesOn: "The eclipse goes on when the window ends: its end lies after the last second.",
    someDown: "Grey rows: the Sun is below the horizon then, and nothing of it is seen.",
    presumed: (day) => `UTC is presumed: leap seconds are known up to ${day} only.`,
    noUtc: "There is no UTC before 1972: local time goes by universal time.",
    extrapolated: "\u0394T of this date is extrapolated, not observed: times may be off a little.",
    forecast:
      "\u0394T of this date is a forecast: times may be off by seconds, by the end of the century by tens of " +
      "seconds.",
    guard:
      "With a guard below 32 the sheet is right by the rules of document 01; it is not proved of Bessel's formulas " +
      "with nothing rounded.",
    noContact: "In this window the shadow's edge does not pass the station: there is no contact.",
  },
  durations: {
    title: "How long",
    penumbra: "Partial eclipse, first to last contact",
    total: "Totality",
    annular: "Annularity",
    star: "Behind the Moon",
    hours: "h",
    minutes: "min",
    seconds: "s",
    to: "to",
  },

  columns: {
    number: "",
    what: "What",
    local: "Local time",
    UTC: "UTC",
    UT: "UT",
    ET: "ET",
    seconds: "Seconds",
    sun: "Sun",
    star: "Star",
    point: "Point of contact",
  },
  scaleNames: { local: "local time", UTC: "UTC", UT: "UT", ET: "ET", seconds: "seconds" },
  zone: (zone, ahead) => `${zone} (UTC${ahead})`,
  to: "to",
  high: (degrees) => `${degrees}\u00b0 high`,
  down: "below the horizon",
  edge: "at the horizon",
  azimuth: (degrees, side) => `${degrees}\u00b0 ${side}`,
  sides: ["N", "NE", "E", "SE", "S", "SW", "W", "NW"],
  point: {
    north: (degrees) => `${degrees}\u00b0 from north`,
    zenith: (degrees) => `${degrees}\u00b0 from zenith`,
    moon: (degrees, zenith) => `Moon's centre lies opposite: ${degrees}\u00b0, ${zenith}\u00b0`,
    none: "none: both centres coincide",
  },

  // what a row says: [title, what it means or ""]
  row(entry, { star, total, share, unsure, head }) {
    const kind = total ? "Totality" : "Annularity";
    const shadow = {
      penumbra: "the penumbra's edge",
      central: "the central shadow's edge",
      star: "the Moon's edge",
    }[entry.phase];
    const long = unsure ? unsure[1] - unsure[0] + 1 : 0;
    const tooNear = `For ${long} s ${shadow} is too near to say on which side the station is`;
    const noClaim = "No contact is claimed, though there may be some.";
    const unsureWords = unsure ? `${long} s between them are within the guard of the edge, and not sure.` : "";
    const contact = (words) => (unsureWords ? `${words}. ${unsureWords}` : words);
    const percent = (millionths, decimals) => (
      Math.floor(millionths / 10 ** (4 - decimals)) / 10 ** decimals
    ).toFixed(decimals);
    switch (entry.name) {
      case "closest":
        // the second of least distance in the fundamental plane; the greatest magnitude may come some seconds from it
        if (star) return ["Axis closest", "the axis through the Moon is closest to the station"];
        if (entry.magnitude === 0) return ["Axis closest", "nothing of the Sun is covered"];
        return [
          entry.second === head.first || entry.second === head.last ? "Axis closest in this window" : "Axis closest",
          `magnitude ${(entry.magnitude / 1e6).toFixed(6)}, ${percent(share, 2)} % of the disc covered`,
        ];
      case "rises":
      case "sets":
        return [
          star ? (
            entry.name === "rises" ? "Star rises" : "Star sets"
          ) : entry.name === "rises" ? "Sun rises" : "Sun sets",
          star
            ? ""
            : `magnitude ${(entry.magnitude / 1e6).toFixed(3)}, ${percent(entry.share, 0)} % of the disc covered`,
        ];
      case "enter":
        if (entry.phase === "star") return ["Star vanishes", unsureWords];
        if (entry.phase === "penumbra") return ["Partial eclipse begins", contact("first contact")];
        return [`${kind} begins`, contact("second contact")];
      case "leave":
        if (entry.phase === "star") return ["Star appears", unsureWords];
        if (entry.phase === "penumbra") return ["Partial eclipse ends", contact("last contact")];
        return [`${kind} ends`, contact("third contact")];
      case "graze":
        return ["Graze", `${tooNear}; before and after it is on one and the same side. ${noClaim}`];
      default: {
        const [start, end] = [entry.from === head.first, entry.to === head.last];
        const where = start && end ? "" : start ? " at the window's start" : " at the window's end";
        return [`Open${where}`, `${tooNear}. ${noClaim}`];
      }
    }
  },

  picture: { north: "N", east: "E", zenith: "zenith", label: (title, time) => `${title}, ${time}` },
  graph: {
    label: "Magnitude and covered share of the Sun over time. Arrow keys move the cursor.",
    unsure: "unsure: within the guard of a shadow's edge",
    reading: (time, magnitude, share, altitude) =>
      `${time} \u00b7 magnitude ${magnitude} \u00b7 ${share} % covered \u00b7 Sun ${altitude}\u00b0`,
  },

  here: {
    title: (place) => `All eclipses at ${place}, 1900 to 2100`,
    columns: {
      date: "Date",
      kind: "Seen here",
      magnitude: "Magnitude",
      time: "Local time",
      altitude: "Sun",
      world: "In the world",
    },
    kinds: { partial: "partial", annular: "annular", total: "total", down: "Sun down" },
    all: "all that are seen",
    coming: "coming",
    central: "total and annular",
    everything: "also those with the Sun down",
    show: "Show",
    count: (count, all, seconds) => `${count} shown; ${all} eclipses computed in ${seconds} s. Pick one to open its sheet.`,
    working: "computing \u2026",
    open: (date) => `Open the sheet of ${date}`,
    atHorizon: "at sunrise or sunset",
    caption: "Largest magnitude with the Sun up, and when; the altitude is the Sun's then.",
  },

  refused: "No sheet",
  atLine: (line) => `Line ${line}`,
  // faults of a text, as the program `request` and docs/CLOCK.md have them
  fault({ name, wrong }) {
    if (wrong.startsWith("unknown name ")) return `There is no such name: \u201c${wrong.slice(13)}\u201d.`;
    if (name === "") return `${starting(wrong)}.`;
    const start = starting(named(name));
    switch (wrong) {
      case "is missing":
        return `${start} is missing: a line \u201c${name} \u2026\u201d is needed.`;
      case "is given twice":
        return `${start} is given twice.`;
      case "is not a number":
        return `${start} is not a number. Digits, a point and a sign are taken, nothing else.`;
      case "has too many decimals for a whole number of units":
        return `${start} has more decimals than the library counts; nothing is rounded for you.`;
      case "is too large for its bytes":
        return `${start} is far too large.`;
      case "is not a date and time":
        return "The instant is not a date and time such as 2017-08-21 18:00:00 ET, or UT at its end.";
      default:
        return `${start} ${wrong}.`;
    }
  },
  // refusals of a request; each field is [name, its range in words]
  refusal({ number, place }, ranges) {
    const told = ` (refusal ${number}, place ${place})`;
    if (number === 1 && place === 0)
      return `The window must have \u221210800 \u2264 first \u2264 last \u2264 10800${told}.`;
    if (ranges.length === 0) return `The library refuses this request${told}.`;
    const [[name, low, high]] = ranges;
    return `${starting(named(name))} is outside its range, ${low} to ${high}${told}.`;
  },
};
