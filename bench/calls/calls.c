/* The stack that each call takes, by a painted thread's stack, and doubles under other rounding modes: see `run`. */
#include <fenv.h>
#include <pthread.h>
#include <stdio.h>
#include <stdlib.h>
#include <string.h>
#include <ukhtvaresh.h>

enum { STACK = 1 << 20, PAINT = 0xA5 };

static uint8_t request[UKHTVARESH_REQUEST_LENGTH], still[UKHTVARESH_REQUEST_LENGTH];
static uint8_t star[UKHTVARESH_STAR_REQUEST_LENGTH];
static uint8_t sheet[400000], text[1 << 20], kept[400000], notes[16];
static uint32_t sines[UKHTVARESH_SINES_LENGTH], entries[400000];
static int64_t eclipse[UKHTVARESH_ECLIPSE_LENGTH], numbers[64], rows[UKHTVARESH_ROWS_LENGTH], zeros[7];
static int64_t units[UKHTVARESH_DOUBLES_LENGTH], bracket[UKHTVARESH_BRACKET_NUMBERS];
static int64_t sidereal[UKHTVARESH_SIDEREAL_LENGTH], misfits[UKHTVARESH_MISFITS_LENGTH];
static uint64_t instant[UKHTVARESH_INSTANT_LENGTH] = {2, 1954, 6, 30, 4320000, 0};
static uint8_t typed[4096];
static size_t typed_length;
static ukhtvaresh_node stations[UKHTVARESH_STATIONS];
static uint64_t steps[UKHTVARESH_STATIONS], value, other, sheet_length, entry_count;
static double doubles[UKHTVARESH_DOUBLES_LENGTH];

static int64_t four(const uint8_t *at)
{
    return (int32_t)((uint32_t)at[0] << 24 | at[1] << 16 | at[2] << 8 | at[3]);
}

static uint64_t nothing(void) { return 0; }
static uint64_t of_sheet(void)
{
    return ukhtvaresh_sheet(request, sizeof request, sines, 901, sheet, sizeof sheet, &value);
}
static uint64_t of_sheet_still(void)
{
    return ukhtvaresh_sheet(still, sizeof still, sines, 901, text, sizeof text, &value);
}
static uint64_t of_share(void)
{
    return ukhtvaresh_sheet_and_share(request, sizeof request, sines, 901, text, sizeof text, &value);
}
static uint64_t of_star(void)
{
    return ukhtvaresh_star(star, sizeof star, sines, 901, text, sizeof text, &value);
}
static uint64_t of_second(void)
{
    return ukhtvaresh_second(request, sizeof request, 0, sines, 901, numbers, 8, &value);
}
static uint64_t of_one_share(void)
{
    return ukhtvaresh_share(request, sizeof request, 4115, sines, 901, &value);
}
static uint64_t of_star_second(void)
{
    return ukhtvaresh_star_second(star, sizeof star, 0, sines, 901, numbers, 5, &value);
}
static uint64_t of_horizon(void)
{
    return ukhtvaresh_horizon(request, sizeof request, 0, sines, 901, numbers, 3, &value);
}
static uint64_t of_star_horizon(void)
{
    return ukhtvaresh_star_horizon(star, sizeof star, 0, sines, 901, numbers, 3, &value);
}
static uint64_t of_contact(void)
{
    return ukhtvaresh_contact(request, sizeof request, 0, -10800, 4000, sines, 901, bracket, 2, &value);
}
static uint64_t of_star_contact(void)
{
    return ukhtvaresh_star_contact(star, sizeof star, 0, -3000, 20, sines, 901, bracket, 2, &value);
}
static uint64_t of_mirror(void)
{
    return ukhtvaresh_mirror(request, sizeof request, text, sizeof text, &value);
}
static uint64_t of_read(void) { return ukhtvaresh_read(sheet, sheet_length, entries, 400000, &value); }
static uint64_t of_write(void)
{
    return ukhtvaresh_write(entries, entry_count * 5, text, sizeof text, &value);
}
static uint64_t of_extent(void) { return ukhtvaresh_extent(sheet, sheet_length, &value); }
static uint64_t of_listing(void)
{
    return ukhtvaresh_listing(sheet, sheet_length, text, sizeof text, &value);
}
static uint64_t of_typed(void)
{
    return ukhtvaresh_typed(typed, typed_length, kept, sizeof kept, instant, 6, text, sizeof text, &value);
}
static uint64_t of_times(void)
{
    return ukhtvaresh_times(request, sizeof request, instant, 6, sines, 901, kept, sizeof kept, text, sizeof text,
                            &value);
}
static uint64_t of_elements(void)
{
    static const int64_t radii[UKHTVARESH_RADII_LENGTH] = {10904847000, 27227400, 27227400};
    return ukhtvaresh_elements(rows, 42, sidereal, 7, radii, 3, 1000, sines, 901, numbers, 22, misfits, 6, &value);
}
static uint64_t of_fit(void) { return ukhtvaresh_fit(zeros, 4, zeros, 7, 1000, &value); }
static uint64_t of_tables(void) { return ukhtvaresh_from_tables(rows, 42, numbers, 56, &value); }
static uint64_t of_root(void) { return ukhtvaresh_root(UINT64_MAX, &value) == UINT32_MAX ? 0 : 1; }
static uint64_t of_mend(void)
{
    return ukhtvaresh_mend(sheet, sheet_length, kept, sizeof kept, notes, 16, &value, &other);
}
static uint64_t of_sheet_of_doubles(void)
{
    int64_t rest[7] = {101, 55755000, 166, 0, -10800, 10800, 16};
    return ukhtvaresh_sheet_of_doubles(doubles, 22, doubles[22], 0, rest, 7, sines, 901, text, sizeof text, &value);
}
static uint64_t of_doubles(void) { return ukhtvaresh_doubles(units, 23, doubles, 23, &value); }
static uint64_t of_network(void)
{
    return ukhtvaresh_network(eclipse, 25, stations, 64, sines, 901, steps, 64, &value);
}

static uint64_t (*call)(void);
static uint64_t answer;

static void *run(void *unused)
{
    answer = call();
    return unused;
}

/* The bytes of a thread's stack that a call of a function leaves other than painted. */
static size_t used(uint64_t (*function)(void))
{
    unsigned char *stack = aligned_alloc(4096, STACK);
    memset(stack, PAINT, STACK);
    pthread_attr_t attributes;
    pthread_t thread;
    pthread_attr_init(&attributes);
    pthread_attr_setstack(&attributes, stack, STACK);
    call = function;
    if (pthread_create(&thread, &attributes, run, NULL) || pthread_join(thread, NULL))
        exit(1);
    size_t clean = 0;
    while (clean < STACK && stack[clean] == PAINT)
        clean++;
    free(stack);
    return STACK - clean;
}

static void put(uint8_t *at, int bytes, int64_t number)
{
    while (bytes--)
        at[bytes] = (uint8_t)number, number >>= 8;
}

static int64_t drawn(int64_t low, int64_t high)
{
    static uint64_t seed = 1;
    seed = seed * 6364136223846793005u + 1442695040888963407u;
    return low + (int64_t)((seed >> 33) % (uint64_t)(high - low + 1));
}

/* Another place, window and guard, in the bytes before a request's end, of an eclipse or of a star. */
static void draw(uint8_t *end)
{
    int64_t first = drawn(-10800, 10800), last = drawn(first, 10800);
    put(end - 23, 4, drawn(-90000000, 90000000));
    put(end - 19, 4, drawn(-180000000, 180000000));
    put(end - 6, 2, first);
    put(end - 4, 2, last);
    put(end - 2, 2, drawn(0, 9) ? drawn(16, 1000) : 16);
}

/* The most that a call takes over drawn requests. */
static size_t most(uint64_t (*function)(void), size_t thread)
{
    size_t bytes = 0;
    for (int k = 0; k < (function == of_network ? 100 : 2000); k++) {
        draw(request + sizeof request);
        draw(star + sizeof star);
        for (int i = 0; i < 64; i++) {
            stations[i].latitude = drawn(-90000000, 90000000);
            stations[i].longitude = drawn(-180000000, 180000000);
        }
        size_t now = used(function) - thread;
        bytes = now > bytes ? now : bytes;
    }
    return bytes;
}

static void rounding(const char *name)
{
    static const struct { int mode; const char *name; } modes[] = {
        {FE_UPWARD, "FE_UPWARD"}, {FE_DOWNWARD, "FE_DOWNWARD"}, {FE_TOWARDZERO, "FE_TOWARDZERO"}};
    double nearest[23], turned[23];
    ukhtvaresh_doubles(units, 23, nearest, 23, &value);
    for (int m = 0; m < 3; m++) {
        fesetround(modes[m].mode);
        ukhtvaresh_doubles(units, 23, turned, 23, &value);
        fesetround(FE_TONEAREST);
        int differ = 0;
        long long most = 0;
        for (int k = 0; k < 23; k++) {
            int64_t one, two;
            memcpy(&one, nearest + k, 8);
            memcpy(&two, turned + k, 8);
            differ += one != two;
            most = llabs(one - two) > most ? llabs(one - two) : most;
        }
        memcpy(doubles, nearest, sizeof doubles);
        memset(text, 0, 4096);
        uint64_t first = of_sheet_of_doubles();
        memcpy(kept, text, 4096);
        memset(text, 0, 4096);
        memcpy(doubles, turned, sizeof doubles);
        fesetround(modes[m].mode);
        uint64_t second = of_sheet_of_doubles();
        fesetround(FE_TONEAREST);
        int same = first == second && memcmp(kept, text, 4096) == 0;
        printf("%s %s: %d of 23 doubles differ, by %lld ulp at most; their sheet is %s\n", name, modes[m].name, differ,
               most, same ? "the same" : "ANOTHER");
    }
}

static void load(const char *name)
{
    FILE *file = fopen(name, "rb");
    if (!file || fread(request, 1, sizeof request, file) != sizeof request)
        exit(1);
    fclose(file);
    for (int k = 0; k < 22; k++)
        eclipse[k] = units[k] = four(request + 1 + 4 * k);
    units[22] = four(request + 96);
    memcpy(request + 109, "\xD5\xD0\x2A\x30", 4); /* the window: -10,800 to 10,800 */
}

int main(int count, char **names)
{
    for (int k = 1; k < count; k++) {
        load(names[k]);
        rounding(names[k]);
    }
    load(names[1]);
    uint64_t refused = of_sheet();
    sheet_length = value;
    of_read();
    entry_count = value;
    of_doubles();
    eclipse[22] = -10800, eclipse[23] = 10800, eclipse[24] = 16;
    for (int k = 0; k < 64; k++)
        stations[k] = (ukhtvaresh_node){k + 1, 55755000 - k * 100000, 37570000, 166, 0, k};
    FILE *file = fopen("examples/potsdam1956.bin", "rb");
    if (refused || !file || fread(star, 1, sizeof star, file) != sizeof star)
        return 1;
    file = fopen("examples/moscow1954.txt", "rb");
    if (!file || !(typed_length = fread(typed, 1, sizeof typed, file)))
        return 1;
    memcpy(still, request, sizeof still);
    for (int k = 0; k < 22; k++) /* an axis that does not leave the station at the pole: every second is computed */
        if (k != 11 && k != 14 && k != 18 && k != 20 && k != 21)
            memset(still + 1 + 4 * k, 0, 4);
    for (int k = 0; k < 7; k++) {
        int64_t row[6] = {2343918253518, 0, 0, 6000000000, 10000000 * (k - 3), 0};
        memcpy(rows + 6 * k, row, sizeof row);
        sidereal[k] = 100000000 + 15041067 * k;
    }
    static const struct { const char *name; uint64_t (*function)(void); } calls[] = {
        {"sheet", of_sheet}, {"sheet, axis at rest", of_sheet_still}, {"sheet_and_share", of_share}, {"star", of_star},
        {"second", of_second}, {"share", of_one_share}, {"star_second", of_star_second}, {"horizon", of_horizon},
        {"star_horizon", of_star_horizon}, {"contact", of_contact}, {"star_contact", of_star_contact},
        {"mirror", of_mirror}, {"read", of_read}, {"extent", of_extent}, {"write", of_write}, {"listing", of_listing},
        {"typed", of_typed}, {"times", of_times}, {"fit", of_fit}, {"from_tables", of_tables},
        {"elements", of_elements}, {"root", of_root}, {"mend", of_mend}, {"sheet_of_doubles", of_sheet_of_doubles},
        {"doubles", of_doubles}, {"network", of_network},
    };
    static const struct { const char *name; uint64_t (*function)(void); } drawn_calls[] = {
        {"sheet", of_sheet}, {"sheet_and_share", of_share}, {"star", of_star}, {"times", of_times},
        {"second", of_second}, {"share", of_one_share}, {"star_second", of_star_second}, {"horizon", of_horizon},
        {"star_horizon", of_star_horizon}, {"contact", of_contact}, {"star_contact", of_star_contact},
        {"network", of_network},
    };
    size_t thread = used(nothing);
    printf("\nBytes of stack, less the %zu of a thread without a call; and the number of the refusal\n", thread);
    for (size_t k = 0; k < sizeof calls / sizeof *calls; k++) {
        size_t bytes = used(calls[k].function);
        printf("%-20s %6zu  %llu\n", calls[k].name, bytes > thread ? bytes - thread : 0, (unsigned long long)answer);
    }
    printf("\nThe most over drawn places, windows and guards: 100 lists of 64 stations for a network, else 2,000\n");
    for (size_t k = 0; k < sizeof drawn_calls / sizeof *drawn_calls; k++)
        printf("%-20s %6zu\n", drawn_calls[k].name, most(drawn_calls[k].function, thread));
    return 0;
}
