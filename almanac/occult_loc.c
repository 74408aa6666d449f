/* Occultations of stars by Swiss Ephemeris, for comparison. Each line of standard input,
 *   YEAR MONTH DAY LONGITUDE LATITUDE HEIGHT STAR
 * gives the first occultation from 0h of that date on, seen from that place: when the star vanishes and appears by
 * swe_lun_occult_when_loc, and both again by Swiss Ephemeris' own places for the station and that function's own rule
 * (separation equal to 0.99916 of the Moon's semidiameter, its radius being 1,738.15 km), solved to a microsecond.
 * Times are days of universal time from the date's 0h. The last number is delta T in seconds.
 * It links libswe, whose licence binds whoever hands the program on; the comparison runs it as a program.
 *   cc -O2 almanac/occult_loc.c -lswe -lm -o target/occult_loc
 */
#include <math.h>
#include <stdio.h>
#include <stdlib.h>
#include <string.h>
#include <swephexp.h>

#define MOON_RADIUS (1738150.0 / 149597870700.0) /* astronomical units */
#define PLACES (SEFLG_SWIEPH | SEFLG_TOPOCTR | SEFLG_EQUATORIAL | SEFLG_XYZ)

static char error[AS_MAXCH];

static void check(int32 status)
{
    if (status < 0) {
        fprintf(stderr, "%s\n", error);
        exit(1);
    }
}

/* The separation of star and Moon's centre less the semidiameter at a Julian day of universal time, radians. */
static double outside(double day, const char *name)
{
    double moon[6], at[6], dot = 0, moons = 0, stars = 0;
    char star[AS_MAXCH];
    strcpy(star, name);
    double ephemeris = day + swe_deltat_ex(day, SEFLG_SWIEPH, error);
    check(swe_calc(ephemeris, SE_MOON, PLACES, moon, error));
    check(swe_fixstar(star, ephemeris, PLACES, at, error));
    for (int k = 0; k < 3; k++) {
        dot += moon[k] * at[k];
        moons += moon[k] * moon[k];
        stars += at[k] * at[k];
    }
    double distance = sqrt(moons);
    return acos(dot / distance / sqrt(stars)) - 0.99916 * asin(MOON_RADIUS / distance);
}

/* The contact within a minute of a Julian day, by bisection. */
static double solved(double day, const char *star)
{
    double low = day - 60.0 / 86400, high = day + 60.0 / 86400;
    int rising = outside(low, star) < 0;
    for (int k = 0; k < 27; k++) {
        double middle = (low + high) / 2;
        if ((outside(middle, star) < 0) == rising)
            low = middle;
        else
            high = middle;
    }
    return low;
}

int main(void)
{
    int year, month, day;
    double place[3], contact[10], attribute[20];
    char star[AS_MAXCH], name[AS_MAXCH];
    swe_set_ephe_path("/usr/share/libswe/ephe");
    while (scanf("%d %d %d %lf %lf %lf %40s", &year, &month, &day, &place[0], &place[1], &place[2], name) == 7) {
        double start = swe_julday(year, month, day, 0, SE_GREG_CAL);
        strcpy(star, name);
        check(swe_lun_occult_when_loc(start, SE_SUN, star, SEFLG_SWIEPH, place, contact, attribute, 0, error));
        swe_set_topo(place[0], place[1], place[2]);
        for (int k = 1; k <= 4; k += 3)
            printf("%.9f ", contact[k] - start);
        for (int k = 1; k <= 4; k += 3)
            printf("%.9f ", solved(contact[k], name) - start);
        printf("%.6f\n", swe_deltat_ex(contact[0], SEFLG_SWIEPH, error) * 86400);
    }
    swe_close();
    return 0;
}
