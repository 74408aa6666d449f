/* Calls ukhtvaresh_sheet once on a request of 115 bytes, with the window of all 21,601 seconds: see bench/library/seconds. */
#include "ukhtvaresh.h"
#include <stdio.h>

int main(int count, char **words) {
    static uint8_t request[115], sheet[65536];
    static uint32_t sines[901];
    uint64_t value;
    FILE *file = count == 2 ? fopen(words[1], "rb") : NULL;
    if (!file || fread(request, 1, sizeof request, file) != sizeof request)
        return 2;
    /* -10,800 and 10,800 */
    request[109] = 0xd5, request[110] = 0xd0, request[111] = 0x2a, request[112] = 0x30;
    return (int)ukhtvaresh_sheet(request, sizeof request, sines, 901, sheet, sizeof sheet, &value);
}
