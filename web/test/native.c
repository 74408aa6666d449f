/* Makes the calls of a file through the archive, and writes what each gave: number, values, and every buffer afterwards.
 * `web/test/library.mjs` writes the file, makes the same calls in WebAssembly and compares. Numbers in both are little-endian.
 *   a call: function (4 bytes), buffers (4), whole numbers (4), doubles (4); each buffer: elements, bytes (8 each), then the bytes;
 *   the whole numbers and the doubles, 8 bytes each
 */
#include <stdio.h>
#include <stdlib.h>
#include <string.h>

#include "../../include/ukhtvaresh.h"

static void get(void *to, size_t bytes)
{
    if (bytes != 0 && fread(to, 1, bytes, stdin) != bytes) {
        fputs("the file ends inside a call\n", stderr);
        exit(1);
    }
}

int main(void)
{
    uint32_t head[4];
    while (fread(head, sizeof head, 1, stdin) == 1) {
        uint8_t *b[8];
        uint64_t n[8], bytes[8], v[2] = {0, 0}, number = 0;
        int64_t i[4];
        double d[4];
        for (uint32_t k = 0; k < head[1]; k++) {
            get(&n[k], 8);
            get(&bytes[k], 8);
            b[k] = malloc(bytes[k] + 8);
            get(b[k], bytes[k]);
        }
        get(i, 8 * head[2]);
        get(d, 8 * head[3]);
#define U32(k) (uint32_t *)(void *)b[k], n[k]
#define I64(k) (int64_t *)(void *)b[k], n[k]
#define U64(k) (uint64_t *)(void *)b[k], n[k]
#define F64(k) (double *)(void *)b[k], n[k]
#define U8(k) b[k], n[k]
        switch (head[0]) {
        case 0: number = ukhtvaresh_sheet(U8(0), U32(1), U8(2), v); break;
        case 1: number = ukhtvaresh_sheet_and_share(U8(0), U32(1), U8(2), v); break;
        case 2: number = ukhtvaresh_star(U8(0), U32(1), U8(2), v); break;
        case 3: number = ukhtvaresh_share(U8(0), i[0], U32(1), v); break;
        case 4: number = ukhtvaresh_second(U8(0), i[0], U32(1), I64(2), v); break;
        case 5: number = ukhtvaresh_mirror(U8(0), U8(1), v); break;
        case 6: number = ukhtvaresh_read(U8(0), U32(1), v); break;
        case 7: number = ukhtvaresh_write(U32(0), U8(1), v); break;
        case 8: number = ukhtvaresh_listing(U8(0), U8(1), v); break;
        case 9: number = ukhtvaresh_fit(I64(0), I64(1), i[0], v); break;
        case 10: number = ukhtvaresh_from_tables(I64(0), I64(1), v); break;
        case 11: number = ukhtvaresh_root((uint64_t)i[0], v); break;
        case 12: number = ukhtvaresh_mend(U8(0), U8(1), U8(2), v, v + 1); break;
        case 13: number = ukhtvaresh_sheet_of_doubles(F64(0), d[0], (uint64_t)i[0], I64(1), U32(2), U8(3), v); break;
        case 14: number = ukhtvaresh_doubles(I64(0), F64(1), v); break;
        case 15: number = ukhtvaresh_network(I64(0), (ukhtvaresh_node *)(void *)b[1], n[1], U32(2), U64(3), v); break;
        case 16: number = ukhtvaresh_star_second(U8(0), i[0], U32(1), I64(2), v); break;
        case 17: number = ukhtvaresh_horizon(U8(0), i[0], U32(1), I64(2), v); break;
        case 18: number = ukhtvaresh_star_horizon(U8(0), i[0], U32(1), I64(2), v); break;
        case 19: number = ukhtvaresh_contact(U8(0), i[0], i[1], i[2], U32(1), I64(2), v); break;
        case 20: number = ukhtvaresh_star_contact(U8(0), i[0], i[1], i[2], U32(1), I64(2), v); break;
        default: return 1;
        }
        fwrite(&number, 8, 1, stdout);
        fwrite(v, 8, 2, stdout);
        for (uint32_t k = 0; k < head[1]; k++) {
            fwrite(b[k], 1, bytes[k], stdout);
            free(b[k]);
        }
    }
    return 0;
}
