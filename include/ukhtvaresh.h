/* Ukhtvaresh: local circumstances of a solar eclipse, and of a star behind the Moon, in whole numbers.
 *
 * Lengths are in 10^-8 of the Earth's equatorial radius, angles in 10^-6 degree, times in whole seconds of
 * ephemeris time from the reference instant. East longitude is positive.
 * Latitude is geodetic, on Krasovsky's spheroid (6,378,245 m, flattening 1:298.3) with its centre at the Earth's
 * centre. The library converts no datum. A latitude and longitude by WGS84 put the station up to 55.6 units, 3.5 m,
 * from its place. Those of Pulkovo 1942, whose spheroid is Krasovsky's with its centre 165 m away, must be converted
 * first. No sheet says whether the Sun is above the horizon: ukhtvaresh_horizon does, for any second.
 *
 * Each function but ukhtvaresh_root answers the number of the refusal, 0 for none. *value gets the length, the count,
 * the share or the station on success, the refusal's place otherwise. Buffers are untouched on refusal; on success
 * what lies past the result is. The buffer for the sine table, `sines`, is filled on some refusals too: see
 * UKHTVARESH_SINES_LENGTH. ukhtvaresh_typed writes its message on 20, and ukhtvaresh_times its sheet where only the
 * text's buffer is too short. No function reads or writes outside the lengths it is given, and none keeps a pointer. A
 * buffer that is written, *value among them, must not overlap any other. A length of 0 is allowed. No pointer may be
 * null: neither that of a buffer, also one of length 0, nor `value`, `kept`, `noted` and `rounds`. Each must be
 * aligned for its type: 8 bytes for int64_t, uint64_t, double and ukhtvaresh_node, 4 for uint32_t and
 * ukhtvaresh_entry, 1 for bytes. Functions may run at the same time in several threads, each with buffers of its own.
 * A call took at most 47,000 bytes of stack for a sheet, 61,000 for a network, and less than 5,000 for anything else
 * (measured with the x86-64 archive, not proved: bench/calls/run).
 * The floating-point environment matters to ukhtvaresh_doubles alone: see there.
 *
 *   number                                           place
 *    1  window or guard outside its range            0 window, 1 guard
 *    2  an element outside its range, or a           first such field, 0 to 21; of a star 0 to 11; of a fit 0 to 3
 *       coefficient of a fit
 *    3  a station value outside its range            first: 0 number, 1 latitude, 2 longitude, 3 height, 4 delta T;
 *       of a network's list                          ten times the list place, counted from 0, plus that
 *    4  the buffer is too short                      the length it needs (bytes; entries for ukhtvaresh_read);
 *       of the buffer for the sine table             901
 *    5  kind not in the table                        first byte of that record
 *    6  the sheet ends inside a record or before     first byte of that record, or the input's length
 *       the end record
 *    7  a field breaks a reader's rule               first byte of that record
 *    8  order broken                                 first byte of that record
 *    9  bytes after the end record                   first of them
 *   10  request, fit, tables, doubles, network or   0
 *       instant not of their shape
 *   11  a row of the tables outside its distances    first such row, 0 to 6
 *   12  a double that is not finite                  first such field, 0 to 21, 22 for the longitude
 *   13  the radius of a star request outside its     0
 *       range
 *   14  a station number already used in the list    first such list place, counted from 0
 *   15  a clock neither 0 nor in the list            first such list place
 *   16  a station whose chain of clocks never        first such list place
 *       reaches 0
 *   17  a fit differs from the tabulated value by    first such hour, 0 to 6 for -3 to 3;
 *       more than the tolerance                      of elements from rows ten times the fit, 0 to 5, plus that
 *   18  the tolerance or a tabulated value of a      0 for the tolerance, 1 to 7 for the first such tabulated value
 *       fit outside its range
 *   19  the list of a network is empty or has more   0
 *       than 64 stations
 *   20  an invalid line of a typed text              the line, from 1; 0 where the text is too long
 *   21  a radius or a sidereal angle of elements     0 to 2 the radius, 3 to 9 the angle
 *       from rows outside its range
 *   22  no such phase, or no contact                 0 phase, 1 the two seconds are not one surely outside and one
 *                                                    surely inside
 *   23  a number of an instant outside its range     first: 0 scale, 1 date, 4 hundredths of a second, 5 TAI less UTC
 */
#ifndef UKHTVARESH_H
#define UKHTVARESH_H

#include <stddef.h>
#include <stdint.h>

#ifdef __cplusplus
extern "C" {
#endif

/* The version of this header and of the library that it belongs to. The first number is that of the shared library's
 * soname: it changes when a program would have to be built again. */
#define UKHTVARESH_VERSION_MAJOR 0
#define UKHTVARESH_VERSION_MINOR 1
#define UKHTVARESH_VERSION_PATCH 0
#define UKHTVARESH_VERSION "0.1.0"

/* The length of a request in bytes. Numbers are big-endian:
 *   kind 02, then 22 signed 4-byte elements: x0 x1 x2 x3, y0 y1 y2 y3, d0 d1 d2, l1 (constant, first, second),
 *     l2 (the same), mu0 mu1 mu2, tan f1, tan f2; coefficients per hour; ranges
 *     x, y      +-200,000,000  +-100,000,000  +-100,000  +-10,000
 *     d         +-25,000,000   +-20,000       +-100
 *     l1        50,000,000 to 60,000,000      +-100,000  +-10,000
 *     l2        +-5,000,000    +-100,000      +-10,000
 *     mu        0 to 359,999,999   14,900,000 to 15,100,000   +-100
 *     tan f     400,000 to 500,000 (10^-8)
 *   kind 03, then the station's number (unsigned, 2 bytes, 1 to 999), and signed, 4 bytes each, its geodetic latitude
 *     on Krasovsky's spheroid (+-90,000,000), longitude (+-180,000,000, east positive), height (-500 to 9,000 metres)
 *     and delta T (-10,000 to 20,000 hundredths of a second; ephemeris time less universal time, 0 for elements by
 *     universal time);
 *   kind 04, then first and last second of the window (signed, 2 bytes each), -10,800 <= first <= last <= 10,800,
 *     and the guard (unsigned, 2 bytes, 16 to 1,000 units of 10^-8 of the Earth's equatorial radius): the half-width
 *     of the undecided band around a cone's edge. A larger guard only withholds: what is sure under it is sure, with
 *     the same answer, under every smaller one. */
#define UKHTVARESH_REQUEST_LENGTH 115

/* Kinds of entries. Enter, leave, graze and open are the paper's words. */
enum {
    UKHTVARESH_HEAD = 0x01,           /* station, first, last, guard */
    UKHTVARESH_ENTER_PENUMBRA = 0x10, /* from, to, direction */
    UKHTVARESH_LEAVE_PENUMBRA = 0x11, /* from, to, direction */
    UKHTVARESH_GRAZE_PENUMBRA = 0x12, /* from, to */
    UKHTVARESH_OPEN_PENUMBRA = 0x13,  /* from, to */
    UKHTVARESH_ENTER_CENTRAL = 0x20,
    UKHTVARESH_LEAVE_CENTRAL = 0x21,
    UKHTVARESH_GRAZE_CENTRAL = 0x22,
    UKHTVARESH_OPEN_CENTRAL = 0x23,
    UKHTVARESH_CLOSEST = 0x30, /* second, and the magnitude at it; 0 after a star's entry */
    UKHTVARESH_SHARE = 0x31,   /* share; once, directly after closest, or left out; never after a star's entry */
    UKHTVARESH_ENTER_STAR = 0x40, /* from, to, direction; a star's entries stand in place of penumbra and central */
    UKHTVARESH_LEAVE_STAR = 0x41, /* from, to, direction */
    UKHTVARESH_GRAZE_STAR = 0x42, /* from, to */
    UKHTVARESH_OPEN_STAR = 0x43,  /* from, to */
    UKHTVARESH_END = 0x7F
};

/* An entry of a sheet: its kind and the kind's fields in their order, 0 for what the kind does not use. Closest is
 * the second of the window at which the axis is closest to the station in the fundamental plane. It is not quite that
 * of the greatest magnitude, which came up to 14 s from it at 1,200 drawn places (almanac/moves.py). A second is
 * stored plus 10,800, 0 to 21,600. Direction: tenths of a degree, north through east, 0 to 3599, or 65,535 for none.
 * Magnitude: millionths, 0 to 1,300,000. Share: the covered part of the Sun's disc at the closest second, millionths,
 * 0 to 1,000,000. Station: 1 to 999. Guard: 16 to 1,000.
 * An array of these is the memory that ukhtvaresh_read fills and ukhtvaresh_write takes, five numbers an entry. */
typedef struct ukhtvaresh_entry {
    uint32_t kind;
    uint32_t fields[4];
} ukhtvaresh_entry;

/* The length of the caller's buffer for the sine table, `sines`. The library stores no table, only differences, 1.8
 * KB in place of 3.6: each call sums them up in this buffer, whatever it held before, and looks its sines up there. So
 * one buffer serves call after call, but not two at the same time. It is filled once only the 4 of the sheet, or of a
 * second's numbers, can still refuse, and is untouched on every refusal before that; its own, 4 with place 901, is
 * the last of these. What lies past its 901 numbers is untouched. Nothing need be read from it: it holds 10^8 times
 * the sine of each tenth of a degree from 0 to 90. */
#define UKHTVARESH_SINES_LENGTH 901

/* ---- Sheets of requests: sheet, sheet_and_share, star ---- */

/* The contact sheet of a request, at the start of `sheet`. *value: its length in bytes. sines_len counts numbers.
 * Refusals, the first of them: 10, 1, 2, 3, 4 with place 901 where sines_len is below that, 4.
 * Example:
 *   if (ukhtvaresh_sheet(request, 115, sines, 901, sheet, sizeof sheet, &length) == 0)
 *       fwrite(sheet, 1, length, stdout); */
uint64_t ukhtvaresh_sheet(const uint8_t *request, size_t request_len, uint32_t *sines, size_t sines_len, uint8_t *sheet,
                          size_t sheet_len, uint64_t *value);

/* The same sheet with one entry more, the share at its closest second, between closest and end: 5 bytes longer.
 * Nothing in the request's bytes asks for it, so ukhtvaresh_sheet never writes it. Parameters, *value and refusals as
 * above.
 * Example:
 *   if (ukhtvaresh_sheet_and_share(request, 115, sines, 901, sheet, sizeof sheet, &length) == 0)
 *       fwrite(sheet, 1, length, stdout); */
uint64_t ukhtvaresh_sheet_and_share(const uint8_t *request, size_t request_len, uint32_t *sines, size_t sines_len,
                                    uint8_t *sheet, size_t sheet_len, uint64_t *value);

/* The length of a star request in bytes. Numbers are big-endian:
 *   kind 05, then 13 signed 4-byte numbers: x0 x1 x2 x3, y0 y1 y2 y3, d0, mu0 mu1 mu2, radius; coefficients per hour.
 *     x and y are the Moon's centre in the plane through the Earth's centre at right angles to the star's direction,
 *     d0 is the star's declination, mu its hour angle; ranges of x, y and mu as above, d0 +-30,000,000, the Moon's
 *     radius 27,200,000 to 27,300,000 (k = 0.2725 is 27,250,000);
 *   kinds 03 and 04 as above. */
#define UKHTVARESH_STAR_REQUEST_LENGTH 79

/* The sheet of a star behind the Moon, at the start of `sheet`: head, entries of the star, closest with magnitude 0,
 * end. The shadow is a cylinder of the Moon's radius: one phase and no cone, and the guard as for an eclipse. Enter
 * is where the star vanishes, leave where it appears again; the direction is that of the Moon's centre from the star,
 * so on the Moon's edge the star is at the opposite one. Parameters and *value as of ukhtvaresh_sheet. Refusals, the
 * first of them: 10; 1; 2 with place 0 to 11; 13; 3; 4 with place 901 where sines_len is below that; 4.
 * Example:
 *   if (ukhtvaresh_star(star, 79, sines, 901, sheet, sizeof sheet, &length) == 0)
 *       fwrite(sheet, 1, length, stdout); */
uint64_t ukhtvaresh_star(const uint8_t *request, size_t request_len, uint32_t *sines, size_t sines_len, uint8_t *sheet,
                         size_t sheet_len, uint64_t *value);

/* ---- One second: share, second, star_second, horizon, star_horizon ---- */

/* How much of the Sun's disc the Moon covers at a second of a request, -10,800 to 10,800, also outside its window.
 * *value: the share itself, millionths rounded down, 0 to 1,000,000: 1,000,000 wherever the total phase is sure, 0
 * where the penumbra is surely left. Refusals: 10; 1 for the window or the second, then for the guard; 2; 3; 4 with
 * place 901 where sines_len is below that.
 * Example:
 *   if (ukhtvaresh_share(request, 115, 4115, sines, 901, &value) == 0)
 *       printf("%.4f %% is covered\n", value / 1e4); */
uint64_t ukhtvaresh_share(const uint8_t *request, size_t request_len, int64_t second, uint32_t *sines, size_t sines_len,
                          uint64_t *value);

/* The numbers of one second, in `shadow`: see ukhtvaresh_second. */
enum {
    UKHTVARESH_U,         /* axis less station, to the east, +-602,170,000 */
    UKHTVARESH_V,         /* the same to the north, +-651,170,000 */
    UKHTVARESH_L1,        /* the penumbra's radius at the station, 48,860,000 to 61,140,000 */
    UKHTVARESH_L2,        /* the central cone's, below zero where the eclipse is total, +-6,140,000 */
    UKHTVARESH_PENUMBRA,  /* 0 outside, 1 inside, 2 unsure: within the guard plus 13 units of the cone's edge */
    UKHTVARESH_CENTRAL,   /* likewise */
    UKHTVARESH_MAGNITUDE, /* millionths, 0 to 1,300,000 */
    UKHTVARESH_DIRECTION, /* tenths of a degree, north through east, 0 to 3599, or 65,535 for none */
    UKHTVARESH_NUMBERS    /* how many: 8 */
};

/* The shadow at a second of a request, -10,800 to 10,800, also outside its window. *value: 8. Refusals: 10; 1 for the
 * window or the second, then for the guard; 2; 3; 4 with place 901 where sines_len is below that; 4 with place 8
 * where shadow_len is below 8. The lengths count numbers.
 * Example:
 *   if (ukhtvaresh_second(request, 115, 4115, sines, 901, shadow, UKHTVARESH_NUMBERS, &value) == 0)
 *       printf("magnitude %.6f\n", shadow[UKHTVARESH_MAGNITUDE] / 1e6); */
uint64_t ukhtvaresh_second(const uint8_t *request, size_t request_len, int64_t second, uint32_t *sines,
                           size_t sines_len,
                           int64_t *shadow, size_t shadow_len, uint64_t *value);

/* The numbers of one second of a star, in `shadow`: see ukhtvaresh_star_second. */
enum {
    UKHTVARESH_STAR_U,         /* axis less station, to the east: the Moon's centre from the star, +-602,170,000 */
    UKHTVARESH_STAR_V,         /* the same to the north, +-703,170,000 */
    UKHTVARESH_STAR_L,         /* the Moon's radius, as in the request */
    UKHTVARESH_STAR_STATE,     /* 0 outside, 1 inside, 2 unsure: within the guard plus 13 units of the edge */
    UKHTVARESH_STAR_DIRECTION, /* tenths of a degree, north through east, 0 to 3599, or 65,535 for none */
    UKHTVARESH_STAR_NUMBERS    /* how many: 5 */
};

/* The shadow at a second of a star request, -10,800 to 10,800, also outside its window. *value: 5. Refusals: 10; 1
 * for the window or the second, then for the guard; 2 with place 0 to 11; 13; 3; 4 with place 901 where sines_len is
 * below that; 4 with place 5 where shadow_len is below 5. The lengths count numbers.
 * Example:
 *   if (ukhtvaresh_star_second(star, 79, 20, sines, 901, shadow, UKHTVARESH_STAR_NUMBERS, &value) == 0)
 *       puts(shadow[UKHTVARESH_STAR_STATE] == 1 ? "hidden" : "not surely hidden"); */
uint64_t ukhtvaresh_star_second(const uint8_t *request, size_t request_len, int64_t second, uint32_t *sines,
                                size_t sines_len, int64_t *shadow, size_t shadow_len, uint64_t *value);

/* The numbers of the horizon at one second, in `horizon`: see ukhtvaresh_horizon. All are tenths of a degree. */
enum {
    UKHTVARESH_ALTITUDE,       /* of the Sun's centre or the star, rounded down, -900 to 900; below 0 it is down */
    UKHTVARESH_AZIMUTH,        /* of the same, from north through east, 0 to 3599, or 65,535 for none */
    UKHTVARESH_ZENITH,         /* direction of the zenith from it, north through east, 0 to 3599, or 65,535 for none */
    UKHTVARESH_HORIZON_NUMBERS /* how many: 3 */
};

/* Where the Sun's centre is in the station's sky at a second of a request, -10,800 to 10,800, also outside its window.
 * The horizon is the plane at right angles to the spheroid's normal, so the altitude depends on the geodetic latitude.
 * No refraction and no dip. At the horizon refraction lifts the Sun by about half a degree.
 * An angle from the zenith is a direction, such as a contact's, less the zenith of the same second, modulo 3600.
 * Azimuth and zenith are none only straight overhead or straight down, where both lengths that each comes from are 0.
 * The mirror of a request has the same altitude at every second. *value: 3.
 * Refusals, the first of them, as of ukhtvaresh_second: 10; 1 for the window or the second, then for the guard; 2; 3;
 * 4 with place 901 where sines_len is below that; 4 with place 3 where horizon_len is below 3. The lengths count
 * numbers.
 * Example:
 *   if (ukhtvaresh_horizon(request, 115, 4115, sines, 901, horizon, UKHTVARESH_HORIZON_NUMBERS, &value) == 0)
 *       puts(horizon[UKHTVARESH_ALTITUDE] < 0 ? "the Sun is down" : "the Sun is up"); */
uint64_t ukhtvaresh_horizon(const uint8_t *request, size_t request_len, int64_t second, uint32_t *sines,
                            size_t sines_len, int64_t *horizon, size_t horizon_len, uint64_t *value);

/* The same of the star of a star request. No refraction and no dip. *value: 3.
 * Refusals, the first of them, as of ukhtvaresh_star_second: 10; 1 for the window or the second, then for the guard;
 * 2 with place 0 to 11; 13; 3; 4 with place 901 where sines_len is below that; 4 with place 3 where horizon_len is
 * below 3. The lengths count numbers.
 * Example:
 *   if (ukhtvaresh_star_horizon(star, 79, 20, sines, 901, horizon, UKHTVARESH_HORIZON_NUMBERS, &value) == 0)
 *       printf("altitude %.1f\n", horizon[UKHTVARESH_ALTITUDE] / 10.0); */
uint64_t ukhtvaresh_star_horizon(const uint8_t *request, size_t request_len, int64_t second, uint32_t *sines,
                                 size_t sines_len, int64_t *horizon, size_t horizon_len, uint64_t *value);

/* ---- Contacts to the hundredth of a second: contact, star_contact ---- */

/* Hundredths of a second between which a contact lies, in `bracket`: see ukhtvaresh_contact. */
enum {
    UKHTVARESH_EARLIER,        /* from the reference instant, -1,080,000 to 1,080,000 */
    UKHTVARESH_LATER,          /* later than that */
    UKHTVARESH_BRACKET_NUMBERS /* how many: 2 */
};

/* Where the contact of a phase (0 penumbra, 1 central) between two seconds of a request lies, such as those of an
 * enter or a leave: -10,800 <= from <= to <= 10,800, also outside its window. One of the two seconds must be surely
 * outside and the other surely inside, under the larger of the request's guard and 32: of a sheet with a guard of 32
 * or more every enter and leave is so. At the earlier of the two hundredths the station is truly on the side of
 * `from` and at the later truly on that of `to`: by Bessel's formulas with nothing rounded, for circular limbs, the
 * elements as given and the station on Krasovsky's spheroid. So the true contact lies between them. Limb, refraction
 * and the elements' own errors are not in it. *value: 2.
 * Refusals, the first of them: 10; 1 with place 0 for the window or for from and to, then with place 1 for the guard;
 * 2; 3; 22 with place 0 for a phase that is neither 0 nor 1; 4 with place 901 where sines_len is below that; 22 with
 * place 1 where the two seconds are not as said; 4 with place 2 where bracket_len is below 2. The lengths count
 * numbers.
 * Example:
 *   if (ukhtvaresh_contact(request, 115, 0, 35, 36, sines, 901, bracket, 2, &value) == 0)
 *       printf("between %.2f and %.2f s\n", bracket[0] / 100.0, bracket[1] / 100.0); */
uint64_t ukhtvaresh_contact(const uint8_t *request, size_t request_len, int64_t phase, int64_t from, int64_t to,
                            uint32_t *sines, size_t sines_len, int64_t *bracket, size_t bracket_len, uint64_t *value);

/* The same of the star of a star request, whose one phase is 0. *value: 2.
 * Refusals, the first of them: 10; 1 as above; 2 with place 0 to 11; 13; 3; 22 with place 0 for a phase that is not 0;
 * then as above.
 * Example:
 *   if (ukhtvaresh_star_contact(star, 79, 0, 35, 36, sines, 901, bracket, 2, &value) == 0)
 *       printf("between %.2f and %.2f s\n", bracket[0] / 100.0, bracket[1] / 100.0); */
uint64_t ukhtvaresh_star_contact(const uint8_t *request, size_t request_len, int64_t phase, int64_t from, int64_t to,
                                 uint32_t *sines, size_t sines_len, int64_t *bracket, size_t bracket_len,
                                 uint64_t *value);

/* ---- Another request from one: mirror ---- */

/* The mirror of a request, at the start of `mirrored`: all y and d coefficients and the latitude with the other sign,
 * nothing else changed. *value: 115. Any numbers: -2^31, which has no opposite in its bytes, stays as it is. The
 * sheet of the mirror of a request within the limits has the same entries, of the same seconds, magnitude, share and
 * length; their directions differ. A request that is refused 1, 2 or 3 and its mirror are refused alike. Refusals:
 * 10; 4 with the length.
 * Example:
 *   if (ukhtvaresh_mirror(request, 115, mirrored, sizeof mirrored, &length) == 0)
 *       fwrite(mirrored, 1, length, stdout); */
uint64_t ukhtvaresh_mirror(const uint8_t *request, size_t request_len, uint8_t *mirrored, size_t mirrored_len,
                           uint64_t *value);

/* ---- Stored sheets: read, extent, write, listing ---- */

/* The entries of a sheet, head and end among them, at the start of `entries`. *value: how many entries. Refusals: the
 * first faulty record's, in it 5, 6, 8, 7; 9; then 4 with the number of entries. In a sheet with a star's entry an
 * eclipse's entry or a share breaks order, 8, and a magnitude above 0 breaks a rule, 7.
 * entries_len counts numbers, five an entry. A sheet from before heads had a guard gives 7 with place 0.
 * Example:
 *   if (ukhtvaresh_read(sheet, length, entries, sizeof entries / sizeof *entries, &value) == 0)
 *       printf("%d entries\n", (int)value); */
uint64_t ukhtvaresh_read(const uint8_t *sheet, size_t sheet_len, uint32_t *entries, size_t entries_len,
                         uint64_t *value);

/* How long the well-formed sheet is that the bytes begin with, whatever follows it. *value: its length in bytes. Sheets
 * of a year file follow each other: the next one begins where this one ends.
 * Refusals: the first faulty record's, in it 5, 6, 8, 7, with the places of ukhtvaresh_read; never 9, nor 4.
 * Example:
 *   if (ukhtvaresh_extent(file, length, &value) == 0)
 *       fwrite(file, 1, value, stdout); */
uint64_t ukhtvaresh_extent(const uint8_t *bytes, size_t bytes_len, uint64_t *value);

/* The sheet of entries, at the start of `sheet`. *value: its length in bytes.
 * Refusals: the first faulty entry's, in it 5, 8, 7; 6 where the list stops before its end entry or inside an entry;
 * 9; then 4. Places are those that the records have or would have in the sheet. entries_len counts numbers.
 * Example:
 *   if (ukhtvaresh_write(entries, 5 * value, sheet, sizeof sheet, &length) == 0)
 *       fwrite(sheet, 1, length, stdout); */
uint64_t ukhtvaresh_write(const uint32_t *entries, size_t entries_len, uint8_t *sheet, size_t sheet_len,
                          uint64_t *value);

/* The listing of a sheet, at the start of `text`: a line for each entry but the end, each with its end of line, no
 * null byte after the last. *value: its length in bytes.
 * Refusals: those of ukhtvaresh_read, but for 4 the length that the text needs.
 * Example:
 *   if (ukhtvaresh_listing(sheet, length, text, sizeof text, &value) == 0)
 *       fwrite(text, 1, value, stdout); */
uint64_t ukhtvaresh_listing(const uint8_t *sheet, size_t sheet_len, uint8_t *text, size_t text_len, uint64_t *value);

/* ---- Texts: typed, times ---- */

/* The numbers of an instant, the date and time of tau = 0: see ukhtvaresh_typed and ukhtvaresh_times. */
enum {
    UKHTVARESH_SCALE,         /* 0 no instant, 1 ephemeris time, 2 universal time */
    UKHTVARESH_YEAR,          /* 1583 to 9999, of the Gregorian calendar */
    UKHTVARESH_MONTH,         /* 1 to 12 */
    UKHTVARESH_DAY,           /* 1 to the month's last */
    UKHTVARESH_HUNDREDTHS,    /* of a second from 0h, 0 to 8,639,999 */
    UKHTVARESH_TAI_UTC,       /* TAI less UTC in seconds, 10 to 99 and only from 1972 on, or 0 for not given */
    UKHTVARESH_INSTANT_LENGTH /* how many: 6 */
};

/* A typed text (docs/PROGRAMS.md) as a request: its bytes at the start of `request`, 115 or a star's 79, and the six
 * numbers of its instant at the start of `instant`. *value: how many bytes.
 * Refusals: 20 with the first invalid line; its message, which ends with a line feed, is then at the start of
 * `message` and has no null byte; 4 with the length that is needed, of `request` before `instant`, or of `message`.
 * Only 20 writes into `message`. instant_len counts numbers.
 * Example:
 *   if (ukhtvaresh_typed(text, length, request, 115, instant, 6, message, sizeof message, &value) == 20)
 *       fprintf(stderr, "line %d is invalid\n", (int)value); */
uint64_t ukhtvaresh_typed(const uint8_t *text, size_t text_len, uint8_t *request, size_t request_len, uint64_t *instant,
                          size_t instant_len, uint8_t *message, size_t message_len, uint64_t *value);

/* What the program `times` prints of a request, a star's if it has 79 bytes: the listing of its sheet with clock
 * times by the instant, altitudes and notes (docs/CLOCK.md), at the start of `text`, with no null byte after it.
 * *value: its length in bytes. The sheet itself is then in `sheet`. With scale 0 there are no clock times, and the
 * other five numbers are not read.
 * Refusals, the first of them: 10 for another instant_len than 6; 23; those of ukhtvaresh_sheet, or of
 * ukhtvaresh_star, in their order; 4 with the length that the text needs. `sheet` and `sines` are left as those
 * functions leave them, so on this last 4 both are filled. On a 10 for the instant and on 23 they are untouched.
 * instant_len and sines_len count numbers.
 * Example:
 *   if (ukhtvaresh_times(request, 115, instant, 6, sines, 901, sheet, sizeof sheet, text, sizeof text, &value) == 0)
 *       fwrite(text, 1, value, stdout); */
uint64_t ukhtvaresh_times(const uint8_t *request, size_t request_len, const uint64_t *instant, size_t instant_len,
                          uint32_t *sines, size_t sines_len, uint8_t *sheet, size_t sheet_len, uint8_t *text,
                          size_t text_len, uint64_t *value);

/* ---- Elements from tables: fit, from_tables, elements ---- */

/* Whether four coefficients, from a spreadsheet, may stand for seven tabulated hourly values, hours -3 to 3, in units:
 * accepted exactly if the tolerance is 0 to 1,000, the tabulated values are +-1,000,000,000, the coefficients in the
 * ranges of x, and at each hour the value by the rule (x at that second) differs from the tabulated one by at most the
 * tolerance. *value: 0.
 * Refusals, the first of them: 10 unless coefficients_len is 4 and tabulated_len 7; 18; 2; 17. The lengths count
 * numbers.
 * Example:
 *   if (ukhtvaresh_fit(coefficients, 4, tabulated, 7, 100, &value) == 17)
 *       printf("hour %d misses\n", (int)value - 3); */
uint64_t ukhtvaresh_fit(const int64_t *coefficients, size_t coefficients_len, const int64_t *tabulated,
                        size_t tabulated_len, int64_t tolerance, uint64_t *value);

/* The values of one row, in `values`: see ukhtvaresh_from_tables. x, y, l1, l2 in 10^-8 of the Earth's equatorial
 * radius, within 1,000 units of the exact value; sines, cosines and tangents in 10^-8, within 4. */
enum {
    UKHTVARESH_ROW_X,      /* the Moon from the Earth's centre across the axis, to the east */
    UKHTVARESH_ROW_Y,      /* the same to the north */
    UKHTVARESH_ROW_SIN_D,  /* sine of the axis' declination */
    UKHTVARESH_ROW_COS_D,
    UKHTVARESH_ROW_TAN_F1, /* tangent of the penumbra's half-angle */
    UKHTVARESH_ROW_TAN_F2, /* of the central cone's */
    UKHTVARESH_ROW_L1,     /* the penumbra's radius in the fundamental plane */
    UKHTVARESH_ROW_L2,     /* the central cone's, below zero where the eclipse is total */
    UKHTVARESH_ROW_VALUES  /* how many: 8 */
};

/* How many rows, and how many numbers come in and go out. */
#define UKHTVARESH_ROWS 7
#define UKHTVARESH_ROWS_LENGTH 42
#define UKHTVARESH_VALUES_LENGTH 56

/* Elements from tables: seven hourly rows of apparent places from the Earth's centre, each the Sun's x, y, z and the
 * Moon's x, y, z in 10^-8 of the Earth's equatorial radius, right-handed, the third to the north pole. The eight
 * values of each row, in the order of the rows, at the start of `values`. *value: 56.
 * The Sun's radius is 109.04847 Earth radii, document 02's. That is 959.63" at one astronomical unit only for a solar
 * parallax of 8.80". So set the Sun at its distance in astronomical units times 1 / sin 8.80" = 23,439.18 Earth radii,
 * and not times today's 23,454.8 (149,597,870.7 km over 6,378.137): with that the Sun is 0.64" too small, and second
 * and third contact come 1.8 s wrong in the median and up to 8.5 s (almanac/moves.py).
 * The Moon's distance is the true one over the equatorial radius; her radius is 0.272274. Refusals: 10 for another
 * length than 42; 11 with the first row in which the Moon is not 55 to 65 radii off, the Sun not 23,000 to 24,000, or
 * the size of the sine of the axis' declination above 0.43 (ends are accepted); 4 with place 56 where values_len is
 * below 56. Any numbers may be given. Lengths count numbers.
 * Example:
 *   if (ukhtvaresh_from_tables(rows, UKHTVARESH_ROWS_LENGTH, values, UKHTVARESH_VALUES_LENGTH, &value) == 0)
 *       printf("x of the middle row: %.8f\n", values[3 * UKHTVARESH_ROW_VALUES + UKHTVARESH_ROW_X] / 1e8); */
uint64_t ukhtvaresh_from_tables(const int64_t *rows, size_t rows_len, int64_t *values, size_t values_len,
                                uint64_t *value);

/* How many sidereal angles, radii and misfits ukhtvaresh_elements takes and gives. */
#define UKHTVARESH_SIDEREAL_LENGTH 7
#define UKHTVARESH_RADII_LENGTH 3
#define UKHTVARESH_MISFITS_LENGTH 6

/* The 22 elements of an eclipse, in the order of a request, from seven hourly rows (as above, hours -3 to 3 from the
 * reference instant), the Greenwich apparent sidereal time at these hours in 10^-6 degree (0 to 359,999,999), and three
 * radii in units: the Sun's (10,890,000,000 to 10,930,000,000) and the Moon's for the penumbra and for the central cone
 * (27,200,000 to 27,300,000 each; document 02's are 10,904,847,000 and 27,227,400 twice). x and y are cubics of least
 * squares, l1, l2, d and mu quadratics, tan f is the middle row's (docs/ELEMENTS.md). In `misfits` the largest
 * difference at any of the seven hours between an element's value and its row's, of x, y, d, l1, l2, mu. *value: 22.
 * Refusals, the first of them: 10 for other lengths than 42, 7, 3; 18 with place 0 for a tolerance outside 0 to 1,000;
 * 21 with place 0 to 2 for a radius, 3 to 9 for a sidereal angle; 11 with the row; 4 with place 901 where sines_len is
 * below that; 2 with the element; 17 with ten times the fit (0 to 5, as the misfits) plus the first hour (0 to 6) that
 * misses by more than the tolerance; 4 with place 22, then with place 6. Lengths count numbers.
 * Example:
 *   if (ukhtvaresh_elements(rows, 42, sidereal, 7, radii, 3, 100, sines, 901, units, 22, misfits, 6, &value) == 0)
 *       printf("x0 is %.8f\n", units[0] / 1e8); */
uint64_t ukhtvaresh_elements(const int64_t *rows, size_t rows_len, const int64_t *sidereal, size_t sidereal_len,
                             const int64_t *radii, size_t radii_len, int64_t tolerance, uint32_t *sines,
                             size_t sines_len, int64_t *elements, size_t elements_len, int64_t *misfits,
                             size_t misfits_len, uint64_t *value);

/* ---- Arithmetic: root ---- */

/* The root of n: the largest whole number whose square is at most n, for any n. It takes two bits of n a round, from
 * the top. *rounds: how many rounds that are, one for each two bits up to the highest one set, a single bit at the
 * top counting as two; 0 for n = 0, at most 30 for n below 2^60, 32 at most. The answer is the root and not the
 * number of a refusal: there is none.
 * The number is that of document 02's definition, and of the one loop that the function runs. It counts rounds and not
 * time: no contract here speaks of time.
 * Example:
 *   value = ukhtvaresh_root(10, &rounds);
 *   printf("%d in %d rounds\n", (int)value, (int)rounds); */
uint64_t ukhtvaresh_root(uint64_t n, uint64_t *rounds);

/* ---- Year files: mend ---- */

/* A stretch of dropped bytes in ukhtvaresh_mend's notes: its start and its length, 8 bytes each, big-endian. */
#define UKHTVARESH_STRETCH_LENGTH 16

/* Mends a file of sheets appended to one another. From the start: where a whole well-formed sheet begins, it is kept,
 * and the walk goes on behind it; otherwise one byte is dropped. The kept sheets in their order at the start of
 * `sheets`, each unbroken stretch of dropped bytes in order at the start of `dropped`. *kept, *noted: how many bytes
 * each has.
 * A file of nothing but well-formed sheets comes out unchanged with *noted 0; so does what was kept, mended again.
 * Kept bytes and the lengths of the stretches add up to file_len. As many bytes as the file has are enough for
 * `sheets`, and 16 more for `dropped`. Its time went by the file's length on every file that was tried, hostile ones
 * too: measured, not proved. Refusal: 4, where a buffer is short, the buffer of `sheets` first; *kept is the length
 * needed, and *noted is 0.
 * Example:
 *   if (ukhtvaresh_mend(file, length, sheets, sizeof sheets, dropped, sizeof dropped, &kept, &noted) == 0)
 *       printf("%d bytes kept, %d stretches dropped\n", (int)kept, (int)noted / UKHTVARESH_STRETCH_LENGTH); */
uint64_t ukhtvaresh_mend(const uint8_t *file, size_t file_len, uint8_t *sheets, size_t sheets_len, uint8_t *dropped,
                         size_t dropped_len, uint64_t *kept, uint64_t *noted);

/* ---- Positions as doubles: sheet_of_doubles, doubles ---- */

/* How many doubles the elements are, how many with the longitude, and how many whole numbers the rest of a survey is.
 * */
#define UKHTVARESH_ELEMENTS_LENGTH 22
#define UKHTVARESH_DOUBLES_LENGTH 23
#define UKHTVARESH_REST_LENGTH 7

/* The contact sheet of a survey, at the start of `sheet`: the elements as 22 doubles in the order of a request,
 * lengths in Earth radii, angles in degrees, tangents as they are; the longitude, east positive, in degrees where
 * `hours` is 0, in hours of time, 15 degrees each, where it is 1; and in whole numbers, 7 of them, the rest: the
 * station's number, latitude, height and delta T, first and last second, guard, as in a request. A double is read as
 * the binary fraction that it exactly is, to the nearest whole unit, halves away from zero; then the sheet is that of
 * the request in whole units. *value: its length in bytes. Lengths count numbers. Refusals, the first of them: 10 for
 * other lengths, or another `hours` than 0 and 1; 1; 12; 2; 3 (a unit too large for 64 bits is outside its range); 4
 * with place 901 where sines_len is below that; 4.
 * Example:
 *   if (ukhtvaresh_sheet_of_doubles(elements, 22, 37.57, 0, rest, 7, sines, 901, sheet, sizeof sheet, &length) == 0)
 *       fwrite(sheet, 1, length, stdout); */
uint64_t ukhtvaresh_sheet_of_doubles(const double *elements, size_t elements_len, double longitude, uint64_t hours,
                                     const int64_t *rest, size_t rest_len, uint32_t *sines, size_t sines_len,
                                     uint8_t *sheet, size_t sheet_len, uint64_t *value);

/* The other way: 23 whole units, the elements and a longitude, as doubles at the start of `doubles`, the longitude in
 * degrees, each by one division by 10^8 or, of angles, by 1,000,000. Read as above each gives its unit back, for
 * every unit in its range. *value: 23. This is for the rounding mode that a C program starts with, to nearest. The
 * division obeys fesetround: under FE_UPWARD 7 to 10 of the 23 doubles were one ulp larger for the requests of
 * examples/. Read again these too gave their units.
 * Refusals: 10 for another length than 23; 2 with the first element outside its range; 3 with place 2 for the
 * longitude; 4 with place 23 where doubles_len is below that. Lengths count numbers.
 * Example:
 *   if (ukhtvaresh_doubles(units, UKHTVARESH_DOUBLES_LENGTH, doubles, UKHTVARESH_DOUBLES_LENGTH, &value) == 0)
 *       printf("x0 is %.8f\n", doubles[0]); */
uint64_t ukhtvaresh_doubles(const int64_t *units, size_t units_len, double *doubles, size_t doubles_len,
                            uint64_t *value);

/* ---- Networks: network ---- */

/* A station of a network's list: what a request has of it, and the number of the station whose clock it follows, 0
 * being the antenna. An array of these is the memory that ukhtvaresh_network takes. */
typedef struct ukhtvaresh_node {
    int64_t number;    /* 1 to 999, each used once in the list */
    int64_t latitude;  /* geodetic on Krasovsky's spheroid, 10^-6 degree, +-90,000,000 */
    int64_t longitude; /* 10^-6 degree, +-180,000,000, east positive */
    int64_t height;    /* metres, -500 to 9,000 */
    int64_t delta_t;   /* hundredths of a second, -10,000 to 20,000 */
    int64_t clock;     /* 0 or the number of a station in the list */
} ukhtvaresh_node;

/* How many numbers the eclipse of a network has: the 22 elements, first and last second of the window, guard, as in a
 * request. */
#define UKHTVARESH_ECLIPSE_LENGTH 25

/* How many steps there are, and how many stations a list may have. */
#define UKHTVARESH_STATIONS 64

/* The whole network in one list: in `steps`, in list order, how many steps each station's clock is from the antenna,
 * 1 if it follows 0, else one more than the station it follows, and 0 past the list. *value: the number of the
 * station that the penumbra reaches first, the one whose first enter penumbra, in the sheet that it gets alone, has
 * the smallest "to"; the first in the list among equals, 0 if none enters. The Sun may be below the horizon there. No
 * sheet is written. stations_len counts stations, the other lengths numbers.
 * Refusals, the first of them: 10 unless eclipse_len is 25 and steps_len 64; 19; 1; 2; 3; 14; 15; 16; 4 with place
 * 901 where sines_len is below that. `sines` is filled on success only.
 * Example:
 *   if (ukhtvaresh_network(eclipse, 25, stations, 2, sines, 901, steps, UKHTVARESH_STATIONS, &value) == 0)
 *       printf("station %d is first\n", (int)value); */
uint64_t ukhtvaresh_network(const int64_t *eclipse, size_t eclipse_len, const ukhtvaresh_node *stations,
                            size_t stations_len,
                            uint32_t *sines, size_t sines_len, uint64_t *steps, size_t steps_len, uint64_t *value);

#ifdef __cplusplus
}
#endif

#endif
