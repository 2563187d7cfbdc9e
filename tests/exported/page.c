/* Calls the C code of docs/DRIVER.md, which tests/exported/page puts into snippets.h, and compares what it answers with
 * what the page says. The layouts are captured ones; the values expected are those that Wireshark's dissector read. */
#include "basilothyn.h"

#include <inttypes.h>
#include <stdio.h>
#include <string.h>

#include "snippets.h"

static unsigned checks, faults;

static void check(int good, const char *what, int line)
{
    checks++;
    if (!good) {
        faults++;
        printf("page.c:%d: not so: %s\n", line, what);
    }
}

#define CHECK(fact) check(fact, #fact, __LINE__)

struct bytes {
    uint8_t at[4096];
    size_t length;
};

static struct bytes file_of(const char *path)
{
    struct bytes b = {.length = 0};
    FILE *file = fopen(path, "rb");

    if (file != NULL) {
        b.length = fread(b.at, 1, sizeof b.at, file);
        fclose(file);
    }
    CHECK(b.length > 0);
    return b;
}

/* Three mirrors of one data server each, device ids that differ in their ninth byte, efficiencies 3, 3, 7. */
static const char three_mirrors[] = "captures/patched-server/P2_3mirrors_multi_lg000_0.bin";

static struct device known;
static unsigned asked[3];

/* One device body for all three device ids, each fetched under its own. */
const struct device *device_of(const uint8_t *id)
{
    struct bytes body = file_of("captures/patched-server/P2_3mirrors_multi_gd000.bin");

    if (id[8] > 2)
        return NULL;
    asked[id[8]]++;
    memcpy(known.fetched_under, id, sizeof known.fetched_under);
    memcpy(known.body, body.at, body.length);
    known.length = body.length;
    return &known;
}

static struct basilothyn_table granted(uint8_t *store)
{
    struct bytes b = file_of(three_mirrors);
    struct basilothyn_event_result e;

    memset(store, 0, BASILOTHYN_STORE_LENGTH);
    e = basilothyn_grant(basilothyn_empty_table(), store, BASILOTHYN_STORE_LENGTH, b.at, b.length);
    CHECK(e.refusal == BASILOTHYN_ACCEPTED);
    return e.table;
}

static void test_tables(void)
{
    static uint8_t store[BASILOTHYN_STORE_LENGTH];
    struct basilothyn_table table = granted(store);

    CHECK(write_after_recall(table, store) == 0);
    CHECK(no_write_after_recall(&table, store) == 17);
    CHECK(table.rw[0].kind == BASILOTHYN_KIND_RECALLED);
    /* All is recalled already: the recall is accepted again, and the write is still refused. */
    CHECK(no_write_after_recall(&table, store) == 17);
    table = basilothyn_empty_table();
    memset(store, 0, sizeof store);
    CHECK(write_after_recall(table, store) == 25 && no_write_after_recall(&table, store) == 25);
}

static void test_servers(void)
{
    static uint8_t store[BASILOTHYN_STORE_LENGTH];
    struct basilothyn_table table = granted(store);
    struct basilothyn_bind_result servers[BASILOTHYN_MIRRORS];
    struct basilothyn_locate_result read, write;

    write = basilothyn_locate_write(table, store, sizeof store, 4096, 1);
    CHECK(servers_of(write, store, servers) == 3 && asked[0] == 1 && asked[1] == 1 && asked[2] == 1);
    for (uint32_t i = 0; i < 3; i++)
        CHECK(servers[i].refusal == 0 && servers[i].version.version == 3 && servers[i].filehandle.length == 20);
    read = basilothyn_locate_read(table, store, sizeof store, 4096, 1);
    CHECK(servers_of(read, store, servers) == 1 && asked[0] == 1 && asked[1] == 1 && asked[2] == 2);
    /* The server of mirror 2 is down, then those of 0 and 1. */
    CHECK(untried_mirror(store, read.slot, read.mirrors) == 0 && untried_mirror(store, read.slot, 5) == 1);
    CHECK(server_in(1, read, store).refusal == 0);
    CHECK(untried_mirror(store, read.slot, 7) == 3);
    /* Without a device body nothing is bound. The device id of mirror 0 stands in the body at 16. */
    store[6 + 16 + 8] = 3;
    CHECK(servers_of(write, store, servers) == 0);
}

static void test_reports(void)
{
    static const uint8_t stateid[BASILOTHYN_STATEID_LENGTH] = {3}, device[BASILOTHYN_DEVICE_ID_LENGTH] = {200};
    uint8_t out[BASILOTHYN_LONGEST_REPORT];

    CHECK(report_failed_write(7, 9, stateid, device, 28, out) == 68);
    CHECK(out[3] == 1 && out[11] == 7 && out[19] == 9 && out[20] == 3 && out[39] == 1 && out[40] == 200);
    CHECK(out[59] == 28 && out[63] == 38 && out[67] == 0);
    CHECK(report_failed_write(7, 9, stateid, device, 0, out) == 0);
    print_errors(out, 68);
    print_errors(out, 67);
}

/* Two writes of 1.5 seconds together, the second of them not whole. */
static void test_statistics(void)
{
    struct basilothyn_statistic s = {.length = UINT64_MAX, .update = {.address = {{3, "tcp"}, {13, "192.0.2.1.8.1"}}}};
    struct basilothyn_statistics_result r;
    uint8_t out[BASILOTHYN_LONGEST_RETURN];

    count_write(&s, 4096, 4096, 600000000);
    count_write(&s, 4096, 1000, 900000000);
    CHECK(return_statistics(&s, out) == 0);
    s.update.filehandle.length = 20;
    /* Both counts, and 80 + 8 + 20 + 24 + 144 bytes of the record. */
    CHECK(return_statistics(&s, out) == 284);
    r = basilothyn_read_statistics(out, 284);
    CHECK(r.refusal == 0 && r.count == 1 && r.statistics[0].write.count == 2 && r.statistics[0].write.bytes == 5096);
    s = r.statistics[0];
    CHECK(s.update.write.ops_requested == 2 && s.update.write.bytes_requested == 8192);
    CHECK(s.update.write.ops_completed == 2 && s.update.write.bytes_completed == 5096);
    CHECK(s.update.write.bytes_not_delivered == 0 && s.update.write.busy.nanoseconds == 0);
    CHECK(s.update.write.completion.seconds == 1 && s.update.write.completion.nanoseconds == 500000000);
    CHECK(s.update.read.ops_requested == 0 && s.read.count == 0);
    print_statistics(out, 284);
    print_statistics(out, 283);
}

int main(void)
{
    test_tables();
    test_servers();
    test_reports();
    test_statistics();
    if (faults > 0)
        printf("%u of %u checks failed\n", faults, checks);
    else
        printf("%u checks\n", checks);
    return faults > 0;
}
