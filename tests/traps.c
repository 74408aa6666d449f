/* Doubles where the caller's floating-point environment traps invalid operations: what is not finite is refused there
 * too, and no flag is raised. A signalling NaN is left out: no comparison can look at it without a trap. */
#include <fenv.h>
#include <math.h>
#include <stdio.h>
#include <ukhtvaresh.h>

static uint64_t refused(int place, double value, uint64_t *found)
{
    static uint32_t sines[UKHTVARESH_SINES_LENGTH];
    static uint8_t sheet[65536];
    int64_t rest[UKHTVARESH_REST_LENGTH] = {101, 55755000, 166, 0, -10800, 10800, 16};
    double numbers[UKHTVARESH_DOUBLES_LENGTH] = {0};
    numbers[place] = value;
    return ukhtvaresh_sheet_of_doubles(numbers, 22, numbers[22], 0, rest, 7, sines, 901, sheet, sizeof sheet, found);
}

int main(void)
{
    const double values[] = {INFINITY, -INFINITY, NAN};
    feclearexcept(FE_ALL_EXCEPT);
    if (feenableexcept(FE_INVALID) == -1) {
        puts("this machine has no trap for FE_INVALID, so nothing was tried");
        return 2;
    }
    for (int place = 0; place < UKHTVARESH_DOUBLES_LENGTH; place++)
        for (int k = 0; k < 3; k++) {
            uint64_t found = 99, number = refused(place, values[k], &found);
            if (number != 12 || found != (uint64_t)place || fetestexcept(FE_ALL_EXCEPT)) {
                printf("%f at place %d: refusal %d with place %d, flags %x\n", values[k], place, (int)number, (int)found,
                       (unsigned)fetestexcept(FE_ALL_EXCEPT));
                return 1;
            }
        }
    return 0;
}
