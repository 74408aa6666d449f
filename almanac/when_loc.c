/* Local circumstances by Swiss Ephemeris, for comparison.
 *   when_loc < LINES        each line "YEAR MONTH DAY HOUR LONGITUDE LATITUDE HEIGHT" gives one line:
 *     first, second, third, fourth contact and greatest eclipse by swe_sol_eclipse_when_loc, which looks for the next
 *     eclipse after that hour of universal time; magnitude as NASA has it, share of the disc; delta T in seconds;
 *     microseconds that the call took; then the four contacts and the greatest eclipse once more, found by bisection
 *     from the same places and radii. Times are days of universal time from the date's 0h; 0 for none.
 *   when_loc FIRST LAST     all solar eclipses of these years, a line each: YEAR MONTH DAY HOUR of greatest eclipse,
 *     and C where it is central somewhere, else P.
 * It links libswe, which binds who hands the program on; the almanac calls it, and `swetest`, as programs and reads
 * their text.
 *   cc -O2 almanac/when_loc.c -lswe -lm -o target/when_loc
 */
#define _POSIX_C_SOURCE 199309L
#include <math.h>
#include <stdio.h>
#include <stdlib.h>
#include <swephexp.h>
#include <time.h>

static const double AU = 149597870.7, SUN = 696000.0, MOON = 1738.15, INNER = 0.99916; /* km; radii as in swecl.c */

static char error[AS_MAXCH];

static double microseconds(void)
{
    struct timespec now;
    clock_gettime(CLOCK_MONOTONIC, &now);
    return now.tv_sec * 1e6 + now.tv_nsec / 1e3;
}

/* The distance of the two centres, seen from the place that swe_set_topo set, in radians; which: 0 itself, 1 less the
 * sum of the two radii, 2 less the size of their difference with the smaller Moon. */
static double apart(double at, int which)
{
    double sun[6], moon[6], product = 0, from_sun = 0, from_moon = 0;
    int32 flags = SEFLG_SWIEPH | SEFLG_TOPOCTR | SEFLG_EQUATORIAL | SEFLG_XYZ;
    if (swe_calc_ut(at, SE_SUN, flags, sun, error) < 0 || swe_calc_ut(at, SE_MOON, flags, moon, error) < 0) {
        fprintf(stderr, "%s\n", error);
        exit(1);
    }
    for (int k = 0; k < 3; k++) {
        product += sun[k] * moon[k];
        from_sun += sun[k] * sun[k];
        from_moon += moon[k] * moon[k];
    }
    from_sun = sqrt(from_sun);
    from_moon = sqrt(from_moon);
    double chord = 0;
    for (int k = 0; k < 3; k++)
        chord += pow(sun[k] / from_sun - moon[k] / from_moon, 2);
    double angle = 2 * asin(sqrt(chord) / 2);
    double large = asin(SUN / AU / from_sun), small = asin(MOON / AU / from_moon);
    return which == 0 ? angle : which == 1 ? angle - large - small : angle - fabs(large - small * INNER);
}

/* The time of the least value of `apart` within three hours of a time. */
static double least(double near, int which)
{
    double low = near - 0.125, best = low;
    for (double at = low; at <= near + 0.125; at += 2.0 / 1440)
        if (apart(at, which) < apart(best, which))
            best = at;
    low = best - 2.0 / 1440;
    double high = best + 2.0 / 1440;
    for (int step = 0; step < 60; step++) {
        double one = low + (high - low) / 3, two = high - (high - low) / 3;
        if (apart(one, which) < apart(two, which))
            high = two;
        else
            low = one;
    }
    return (low + high) / 2;
}

/* Where `apart` changes its sign between a time within and one without. */
static double edge(double within, double without, int which)
{
    for (int step = 0; step < 45; step++) {
        double middle = (within + without) / 2;
        if (apart(middle, which) < 0)
            within = middle;
        else
            without = middle;
    }
    return within;
}

static void list(int first, int last)
{
    double at = swe_julday(first, 1, 1, 0, SE_GREG_CAL), hour, found[10];
    for (;;) {
        int32 kind = swe_sol_eclipse_when_glob(at, SEFLG_SWIEPH, 0, found, 0, error);
        int year, month, day;
        swe_revjul(found[0], SE_GREG_CAL, &year, &month, &day, &hour);
        if (kind < 0 || year > last)
            return;
        printf("%d %d %d %.6f %s\n", year, month, day, hour, kind & SE_ECL_CENTRAL ? "C" : "P");
        at = found[0] + 10;
    }
}

int main(int count, char **words)
{
    int year, month, day;
    double hour, place[3], contact[10], attribute[20];
    swe_set_ephe_path("/usr/share/libswe/ephe");
    if (count == 3) {
        list(atoi(words[1]), atoi(words[2]));
        return 0;
    }
    while (scanf("%d %d %d %lf %lf %lf %lf", &year, &month, &day, &hour, &place[0], &place[1], &place[2]) == 7) {
        double zero = swe_julday(year, month, day, 0, SE_GREG_CAL), start = zero + hour / 24;
        double began = 0, took = 0;
        for (int run = 0; run < 4; run++) { /* the first opens files and fills tables */
            if (run == 1)
                began = microseconds();
            if (swe_sol_eclipse_when_loc(start, SEFLG_SWIEPH, place, contact, attribute, 0, error) < 0) {
                fprintf(stderr, "%s\n", error);
                return 1;
            }
        }
        took = (microseconds() - began) / 3;
        for (int k = 1; k <= 4; k++)
            printf("%.9f ", contact[k] == 0 ? 0 : contact[k] - zero);
        double delta_t = swe_deltat_ex(contact[0], SEFLG_SWIEPH, error) * 86400;
        printf("%.9f %.6f %.6f %.6f %.1f ", contact[0] - zero, attribute[8], attribute[2], delta_t, took);
        swe_set_topo(place[0], place[1], place[2]);
        double own[4] = {0, 0, 0, 0};
        for (int inner = 0; inner < 2; inner++) {
            double middle = least(start + 0.5, 1 + inner);
            if (apart(middle, 1 + inner) < 0) {
                own[inner] = edge(middle, middle - 0.15, 1 + inner) - zero;
                own[3 - inner] = edge(middle, middle + 0.15, 1 + inner) - zero;
            }
        }
        printf("%.9f %.9f %.9f %.9f %.9f\n", own[0], own[1], own[2], own[3], least(start + 0.5, 0) - zero);
    }
    swe_close();
    return 0;
}
