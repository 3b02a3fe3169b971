/* A plain reader of the capture of a shelf's wire: walks the records on standard input, keeps the last request, and
 * compares each reply to it with a table of sectors, in which a write and a read of a sector that wasn't known put
 * theirs. Prints how many records, requests and replies there are, and ends with 1 at a reply that differs. Knows
 * reads and writes with 48-bit addresses alone, little-endian files, and one device: bench/audit.
 *
 *     audit SECTORS
 */
#include <stdint.h>
#include <stdio.h>
#include <stdlib.h>
#include <string.h>
#include <unistd.h>

enum { HEAD = 24, RECORD = 16, LONGEST = 9018, SECTOR = 512, ARGS = 24, DATA = 36 };

static uint8_t buffer[1 << 16];
static size_t begun, filled;

/* Fills out with so many bytes: 0 at the end of the input. */
static int fill(uint8_t *out, size_t count) {
    while (count > 0) {
        if (begun == filled) {
            ssize_t came = read(0, buffer, sizeof buffer);
            if (came <= 0)
                return 0;
            begun = 0;
            filled = came;
        }
        size_t piece = filled - begun < count ? filled - begun : count;
        memcpy(out, buffer + begun, piece);
        begun += piece;
        out += piece;
        count -= piece;
    }
    return 1;
}

static uint32_t word(const uint8_t *at) { return at[0] | at[1] << 8 | at[2] << 16 | (uint32_t)at[3] << 24; }

int main(int argc, char **argv) {
    static uint8_t frame[LONGEST], request[LONGEST];
    uint8_t head[HEAD], record[RECORD];
    size_t sectors = argc > 1 ? strtoul(argv[1], NULL, 10) : 16;
    uint8_t **table = calloc(sectors, sizeof *table);
    unsigned records = 0, requests = 0, replies = 0;
    if (!table || !fill(head, HEAD))
        return 2;
    for (; fill(record, RECORD); records++) {
        uint32_t length = word(record + 8);
        if (length > LONGEST || length != word(record + 12) || !fill(frame, length))
            return 2;
        if (length < DATA || frame[12] != 0x88 || frame[13] != 0xa2)
            continue;
        if (!(frame[14] & 8)) {
            memcpy(request, frame, length);
            requests++;
            continue;
        }
        replies++;
        if (memcmp(frame + 19, request + 19, 5) || memcmp(frame, request + 6, 6) || frame[ARGS + 3] != 0x40)
            return 1;
        size_t at = word(request + ARGS + 4), count = request[ARGS + 2];
        int is_write = request[ARGS + 3] == 0x34;
        const uint8_t *data = (is_write ? request : frame) + DATA;
        for (size_t i = 0; i < count; i++, data += SECTOR) {
            if (at + i >= sectors)
                return 1;
            uint8_t **place = table + at + i;
            if (*place && !is_write && memcmp(*place, data, SECTOR))
                return 1;
            if (!*place && !(*place = malloc(SECTOR)))
                return 2;
            memcpy(*place, data, SECTOR);
        }
    }
    printf("ok records %u requests %u replies %u faults 0\n", records, requests, replies);
    return 0;
}
