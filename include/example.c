/* Prints the listing of a request's contact sheet.
 * At the repository's top, after `tools/build library`:
 *
 *   cc -std=c99 -Wall -Wextra -Iinclude include/example.c target/staticlib/libukhtvaresh.a -o target/example
 *   target/example < examples/moscow1954.bin
 */
#include <inttypes.h>
#include <stdio.h>

#include "ukhtvaresh.h"

enum { SHEET = 65536, TEXT = 6 * SHEET }; /* of a record of 5 bytes a line has 29 at most */

static uint8_t sheet[SHEET], text[TEXT];
static uint32_t sines[UKHTVARESH_SINES_LENGTH];

static int refused(uint64_t number, uint64_t place)
{
    fprintf(stderr, "refused %" PRIu64 " %" PRIu64 "\n", number, place);
    return 1;
}

int main(void)
{
    /* One byte more than a request, so that a longer input is refused and not cut. */
    uint8_t request[UKHTVARESH_REQUEST_LENGTH + 1];
    size_t request_len = fread(request, 1, sizeof request, stdin);
    uint64_t length, number;

    number = ukhtvaresh_sheet(request, request_len, sines, UKHTVARESH_SINES_LENGTH, sheet, SHEET, &length);
    if (number != 0)
        return refused(number, length);

    number = ukhtvaresh_listing(sheet, length, text, TEXT, &length);
    if (number != 0)
        return refused(number, length);

    fwrite(text, 1, length, stdout);
    return 0;
}
