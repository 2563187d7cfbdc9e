/*
 * Grants a captured layout, asks where three writes go, recalls the layout, and is refused:
 *     write_and_recall FILE
 * FILE has one RW layout4 as on the wire, such as captures/patched-server/P4_striped_lg000_0.bin.
 */
#include "basilothyn.h"

#include <inttypes.h>
#include <stdio.h>

static uint8_t store[BASILOTHYN_STORE_LENGTH];

static int write_at(struct basilothyn_table table, uint64_t offset, uint64_t length)
{
    struct basilothyn_locate_result r = basilothyn_locate_write(table, store, sizeof store, offset, length);

    if (r.refusal != BASILOTHYN_ACCEPTED) {
        printf("write %" PRIu64 "+%" PRIu64 ": refused %" PRIu32 "\n", offset, length, r.refusal);
        return 0;
    }
    printf("write %" PRIu64 "+%" PRIu64 ": %" PRIu64 " bytes to stripe %" PRIu32 ", mirrors %" PRIu32 "\n", offset, length, r.length, r.stripe,
           r.mirrors);
    return 1;
}

int main(int argc, char **argv)
{
    static uint8_t bytes[8192];
    struct basilothyn_event_result e;
    size_t length;
    FILE *file;

    if (argc != 2 || !(file = fopen(argv[1], "rb"))) {
        fprintf(stderr, "usage: write_and_recall FILE\n");
        return 2;
    }
    length = fread(bytes, 1, sizeof bytes, file);
    fclose(file);

    e = basilothyn_grant(basilothyn_empty_table(), store, sizeof store, bytes, length);
    printf("grant: %" PRIu32 "\n", e.refusal);
    if (e.refusal != BASILOTHYN_ACCEPTED)
        return 1;

    if (!write_at(e.table, 0, 4096) || !write_at(e.table, 65535, 4096) || !write_at(e.table, UINT64_C(17592186109952), 65536))
        return 1;

    e = basilothyn_recall(e.table, store, sizeof store, 0, UINT64_MAX, BASILOTHYN_ANY);
    printf("recall: %" PRIu32 "\n", e.refusal);
    if (e.refusal != BASILOTHYN_ACCEPTED)
        return 1;

    return write_at(e.table, 0, 4096) ? 1 : 0;
}
