/*
 * Reads the statistics of a captured layout return, writes the body again, and compares the two byte for byte:
 *     return_with_statistics FILE
 * FILE has an ff_layoutreturn4 without error reports, such as captures/patched-server/P1_2mirrors_eff5_9_lr000.bin.
 */
#include "basilothyn.h"

#include <inttypes.h>
#include <stdio.h>
#include <string.h>

static void print_latency(const char *name, struct basilothyn_latency l)
{
    printf("  %s: %" PRIu64 " bytes asked for, %" PRIu64 " done, %" PRIu64 " not delivered; busy %" PRIu64 ".%09" PRIu32
           " s, round trips %" PRIu64 ".%09" PRIu32 " s\n", name, l.bytes_requested, l.bytes_completed,
           l.bytes_not_delivered, l.busy.seconds, l.busy.nanoseconds, l.completion.seconds, l.completion.nanoseconds);
}

static void print_statistic(const struct basilothyn_statistic *s)
{
    const struct basilothyn_netaddr *a = &s->update.address;

    printf("%.*s %.*s: %" PRIu64 " reads, %" PRIu64 " writes, in %" PRIu64 ".%09" PRIu32 " s\n", (int)a->netid.length,
           (const char *)a->netid.bytes, (int)a->text.length, (const char *)a->text.bytes, s->read.count,
           s->write.count, s->update.duration.seconds, s->update.duration.nanoseconds);
    print_latency("READ", s->update.read);
    print_latency("WRITE and COMMIT", s->update.write);
}

int main(int argc, char **argv)
{
    static uint8_t body[BASILOTHYN_LONGEST_RETURN + 1], out[BASILOTHYN_LONGEST_RETURN];
    static struct basilothyn_outgoing outgoing;
    struct basilothyn_statistics_result r;
    struct basilothyn_write_result w;
    size_t length;
    FILE *file;

    if (argc != 2 || !(file = fopen(argv[1], "rb"))) {
        fprintf(stderr, "usage: return_with_statistics FILE\n");
        return 2;
    }
    length = fread(body, 1, sizeof body, file);
    fclose(file);

    r = basilothyn_read_statistics(body, length);
    printf("%zu bytes: %" PRIu32 "\n", length, r.refusal);
    for (uint32_t i = 0; i < r.count; i++)
        print_statistic(&r.statistics[i]);

    outgoing.statistic_count = r.count;
    memcpy(outgoing.statistics, r.statistics, sizeof r.statistics);
    w = basilothyn_write_return(outgoing, NULL, 0, out, sizeof out);
    printf("written: %" PRIu32 ", %" PRIu64 " bytes\n", w.refusal, w.length);
    if (w.length != length || memcmp(out, body, length) != 0)
        return 1;
    printf("the same bytes\n");
    return 0;
}
