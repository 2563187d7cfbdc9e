/*
 * Holds the constants of include/basilothyn.h that stand for a size, a flag, a kind, a version or an operation to the
 * core and to the scope paper, and tests the two functions that the header itself defines, NULL runs and runs that
 * overlap. Prints what header.c prints, and the text of each refusal.
 */
#include "calls.h"

/* ---- sizes of what the caller keeps */

/* How many bodies a store takes, and how far apart they stand in it. */
static uint64_t bodies_kept(uint64_t *apart)
{
    struct file f = new_file();
    size_t found[2] = {0, 0}, count = 0;
    uint8_t number = 0;

    while (grant(&f, number, 1, 2, body_number((uint8_t)(100 + number))) == 0)
        number++;
    CHECK(grant(&f, number, 1, 2, body_number((uint8_t)(100 + number))) == 24);
    /* The device ids of the first two bodies are 16 times 100 and 16 times 101. */
    for (size_t at = 0; at < sizeof f.store && count < 2; at++) {
        if (f.store[at] == 100 + count)
            found[count++] = at;
    }
    *apart = found[1] - found[0];
    return number;
}

static void test_store(void)
{
    uint64_t apart, kept = bodies_kept(&apart);

    CONSTANT(BASILOTHYN_SLOTS, 8, kept);
    CONSTANT(BASILOTHYN_SLOT_LENGTH, 4096, apart);
    CONSTANT(BASILOTHYN_STORE_LENGTH, 32768, kept * apart);
}

static void test_kinds(void)
{
    struct file f = new_file();

    CONSTANT(BASILOTHYN_KIND_NONE, 0, f.table.rw[0].kind);
    CHECK(grant(&f, 0, 100, 2, smallest) == 0);
    CONSTANT(BASILOTHYN_KIND_GRANTED, 1, f.table.rw[0].kind);
    CHECK(recall(&f, 0, 100, 2) == 0);
    CONSTANT(BASILOTHYN_KIND_RECALLED, 2, f.table.rw[0].kind);
}

/* ---- the most of each in a body, and the longest bodies */

static uint32_t most_filehandles(void)
{
    struct layout_plan p = smallest;

    while (read_layout(layout_body(p)).refusal == 0)
        p.handles++;
    CHECK(read_layout(layout_body(p)).refusal == 8);
    return p.handles - 1;
}

static uint32_t longest_filehandle(void)
{
    struct layout_plan p = smallest;

    while (read_layout(layout_body(p)).refusal == 0)
        p.handle_length++;
    CHECK(read_layout(layout_body(p)).refusal == 8);
    return p.handle_length - 1;
}

static const struct version_plan v3 = {.version = 3, .rsize = 1, .wsize = 1};

static uint32_t most_addresses(void)
{
    uint32_t count = 1;

    while (read_device(device_body(count, "tcp", "a", 1, &v3)).refusal == 0)
        count++;
    CHECK(read_device(device_body(count, "tcp", "a", 1, &v3)).refusal == 8);
    return count - 1;
}

static uint32_t most_versions(void)
{
    struct version_plan v[20];
    uint32_t count = 1;

    for (uint32_t i = 0; i < ENTRIES(v); i++)
        v[i] = v3;
    while (count < ENTRIES(v) && read_device(device_body(1, "tcp", "a", count, v)).refusal == 0)
        count++;
    CHECK(read_device(device_body(1, "tcp", "a", count, v)).refusal == 8);
    return count - 1;
}

static uint32_t most_reports(void)
{
    uint32_t count = 0;

    while (read_reports(report_body(count, 1)).refusal == 0)
        count++;
    return count - 1;
}

static uint32_t most_errors(void)
{
    uint32_t count = 1;

    while (read_reports(report_body(1, count)).refusal == 0)
        count++;
    return count - 1;
}

static void test_counts(void)
{
    struct basilothyn_device_result d;
    struct basilothyn_reports_result r;

    CONSTANT(BASILOTHYN_FILEHANDLES, 8, most_filehandles());
    CONSTANT(BASILOTHYN_LONGEST_FILEHANDLE, 128, longest_filehandle());
    CONSTANT(BASILOTHYN_ADDRESSES, 8, most_addresses());
    CONSTANT(BASILOTHYN_VERSIONS, 8, most_versions());
    CONSTANT(BASILOTHYN_REPORTS, 8, most_reports());
    CONSTANT(BASILOTHYN_ERRORS, 16, most_errors());
    CHECK(ENTRIES(d.addresses) == 8 && ENTRIES(d.versions) == 8 && ENTRIES(r.heads) == 8 && ENTRIES(r.errors_at) == 8);
}

/* One mirror of eight data servers of 508 bytes: 40 before four filehandles of 100 and their lengths, 48 for the user,
 * 4 for the group. With counts, unit, flags and hint 4,088 bytes; each item takes a multiple of 4, so 4,090, where the
 * paper's limit is, cannot be reached. */
static struct layout_plan longest_layout(void)
{
    struct layout_plan p = smallest;

    p.unit = 4096;
    p.servers = 8;
    p.handles = 4;
    p.handle_length = 100;
    p.user = "0123456789abcdef0123456789abcdef0123456789ab";
    return p;
}

static void test_longest(void)
{
    static const char text[] = "0123456789abcdef0123456789abcdef0123456789abcdef0123456789abcdef";
    struct bytes layout = layout_body(longest_layout()), whole = layout4(0, 1, 2, longest_layout()), device, reports;
    struct version_plan v[8];

    for (uint32_t i = 0; i < ENTRIES(v); i++)
        v[i] = v3;
    device = device_body(8, "netid678", text, 8, v);
    reports = report_body(8, 16);
    CHECK(read_layout(layout).refusal == 0 && read_layout4(whole).refusal == 0);
    CHECK(read_device(device).refusal == 0 && read_reports(reports).refusal == 0);
    CONSTANT(BASILOTHYN_LONGEST_LAYOUT, 4088, layout.length);
    CONSTANT(BASILOTHYN_LONGEST_LAYOUT4, 28 + 4088, whole.length);
    CONSTANT(BASILOTHYN_LONGEST_DEVICE, 808, device.length);
    CONSTANT(BASILOTHYN_LONGEST_REPORT, 3368, reports.length);
    CHECK(read_layout(of_length(layout, 4090)).refusal == 2 && read_layout(of_length(layout, 4092)).refusal == 8);
}

static void test_lengths(void)
{
    struct version_plan tight = {4, 1, 1, 1, 1};
    struct basilothyn_bind_result b = bind_server(smallest, 0, 0, device_body(1, "tcp", "a", 1, &tight), 1, 4);
    struct basilothyn_reports_result one = read_reports(report_body(2, 1)), two = read_reports(report_body(2, 2));
    size_t start = read_layout(layout_body(smallest)).starts[0];

    /* Between the start of a data server and its stateid stand device id and efficiency, between the stateid and the
     * filehandle two numbers. */
    CHECK(b.refusal == 0 && one.refusal == 0 && two.refusal == 0);
    CONSTANT(BASILOTHYN_DEVICE_ID_LENGTH, 16, b.stateid - start - 4);
    CONSTANT(BASILOTHYN_STATEID_LENGTH, 16, b.filehandle.start - b.stateid - 8);
    CONSTANT(BASILOTHYN_ERROR_LENGTH, 24, two.errors_at[1] - one.errors_at[1]);
}

/* ---- flags, versions, operations */

/* The flag under which RW serves no read, and the one under which a write goes to one mirror of two. */
static uint32_t flag_without_reads(void)
{
    uint32_t without = 0;

    for (uint32_t flag = 1; flag < 16; flag *= 2) {
        struct file f = new_file();
        struct layout_plan p = smallest;

        p.flags = flag;
        CHECK(grant(&f, 0, 100, 2, p) == 0);
        without += locate_read(&f, 0, 1).refusal == 17 ? flag : 0;
    }
    return without;
}

static uint32_t flag_of_one_mirror(void)
{
    uint32_t one = 0;

    for (uint32_t flag = 1; flag < 16; flag *= 2) {
        struct file f = new_file();
        struct layout_plan p = smallest;

        p.mirrors = 2;
        p.flags = flag;
        CHECK(grant(&f, 0, 100, 2, p) == 0);
        one += locate_write(&f, 0, 1).mirrors == 1 ? flag : 0;
    }
    return one;
}

/* The core hands the first two on: of them there is only the paper's number and that they are read. */
static uint32_t flags_read(uint32_t flags)
{
    struct layout_plan p = smallest;

    p.flags = flags;
    return read_layout(layout_body(p)).summary.flags;
}

static void test_flags(void)
{
    CONSTANT(BASILOTHYN_FF_FLAGS_NO_LAYOUTCOMMIT, 1, flags_read(1));
    CONSTANT(BASILOTHYN_FF_FLAGS_NO_IO_THRU_MDS, 2, flags_read(2));
    CONSTANT(BASILOTHYN_FF_FLAGS_NO_READ_IO, 4, flag_without_reads());
    CONSTANT(BASILOTHYN_FF_FLAGS_WRITE_ONE_MIRROR, 8, flag_of_one_mirror());
}

/* The bits that, each alone, let a version be bound. */
static uint32_t bits_of(uint32_t version, uint32_t minor)
{
    struct version_plan v = {version, minor, 1, 1, 0};
    uint32_t bits = 0;

    for (uint32_t bit = 1; bit < 16; bit *= 2) {
        struct basilothyn_bind_result b = bind_server(smallest, 0, 0, device_body(1, "tcp", "a", 1, &v), 1, bit);

        CHECK(b.refusal == 0 || b.refusal == 14);
        bits += b.refusal == 0 ? bit : 0;
    }
    return bits;
}

static void test_versions(void)
{
    CONSTANT(BASILOTHYN_NFS3, 1, bits_of(3, 0));
    CONSTANT(BASILOTHYN_NFS40, 2, bits_of(4, 0));
    CONSTANT(BASILOTHYN_NFS41, 4, bits_of(4, 1));
    CONSTANT(BASILOTHYN_NFS42, 8, bits_of(4, 2));
}

/* The first operation, from a number on, that an error may be of. */
static uint32_t operation_from(uint32_t number)
{
    struct bytes body = report_body(1, 1);

    while (number < 100000 && read_error(with(body, 60, number, 4), 40).refusal != 0)
        number++;
    return number;
}

static void test_operations(void)
{
    CONSTANT(BASILOTHYN_OP_COMMIT, 5, operation_from(0));
    CONSTANT(BASILOTHYN_OP_READ, 25, operation_from(6));
    CONSTANT(BASILOTHYN_OP_WRITE, 38, operation_from(26));
    CHECK(operation_from(39) == 100000);
}

/* ---- the two functions of the header */

static void test_body(void)
{
    struct file f = new_file();
    struct bytes second = layout_body(longest_layout());
    const uint8_t *body;
    size_t length;

    CHECK(grant(&f, 0, 1, 2, smallest) == 0 && grant(&f, 1, 1, 2, longest_layout()) == 0);
    body = CALL(basilothyn_body)(f.store, locate_write(&f, 1, 1).slot, &length);
    CHECK(length == 4088 && memcmp(body, second.at, length) == 0);
    body = basilothyn_body(f.store, 0, &length);
    CHECK(length == 80 && body == f.store + 6);
    CHECK(basilothyn_body(f.store, 7, &length) == f.store + 7 * 4096 + 6 && length == 0);
    CHECK(basilothyn_body(f.store, 8, &length) == NULL && length == 0);
    CHECK(basilothyn_body(f.store, UINT32_MAX, &length) == NULL && length == 0);
    /* No body is so long: the lengths 4,089, 65,536 + 80 and 2^24 + 80. */
    f.store[0] = 249;
    f.store[1] = 15;
    CHECK(basilothyn_body(f.store, 0, &length) == NULL && length == 0);
    memcpy(f.store, (const uint8_t[]){80, 0, 1, 0}, 4);
    CHECK(basilothyn_body(f.store, 0, &length) == NULL && length == 0);
    memcpy(f.store, (const uint8_t[]){80, 0, 0, 1}, 4);
    CHECK(basilothyn_body(f.store, 0, &length) == NULL && length == 0);
}

/* Words of the paper's table of refusals, in its order; the numbers 18 and 19 are not used. */
static void test_texts(void)
{
    static const char *const words[] = {
        "accepted", "run out", "left over", "iomode", "layout type", "range", "padding byte", "boolean",
        "count or length", "server count differs", "unit", "flag bit", "version entry", "differ in binding",
        "no version", "stateid is not zero", "beyond the layout", "right", "no refusal", "no refusal", "unsound",
        "under another body", "recalled", "32 segments", "slot", "held", "output is too short", "operation",
        "nanoseconds"};

    for (uint32_t number = 0; number < ENTRIES(words); number++) {
        const char *text = CALL(basilothyn_refusal_text)(number);

        CHECK(strstr(text, words[number]) != NULL);
        printf("refusal %u %s\n", (unsigned)number, text);
    }
    CHECK(strstr(basilothyn_refusal_text(29), "no refusal") != NULL);
    CHECK(strstr(basilothyn_refusal_text(UINT32_MAX), "no refusal") != NULL);
}

/* ---- runs without bytes, and runs that overlap */

static void test_null_runs(void)
{
    struct basilothyn_table t = basilothyn_empty_table();
    struct basilothyn_report_heads heads = {.heads = {{.offset = 0}}};
    struct basilothyn_outgoing nothing = {.count = 0};
    struct bytes layout = layout_body(smallest);
    struct file f = new_file();
    uint8_t out[8] = {1, 1, 1, 1, 1, 1, 1, 1};

    CHECK(basilothyn_read_layout(NULL, 0).refusal == 1 && basilothyn_read_layout4(NULL, 0).refusal == 1);
    CHECK(basilothyn_read_device(NULL, 0).refusal == 1 && basilothyn_read_reports(NULL, 0).refusal == 1);
    CHECK(basilothyn_read_error(NULL, 0, 0).refusal == 1 && basilothyn_read_error(NULL, 0, SIZE_MAX).refusal == 1);
    CHECK(basilothyn_grant(t, f.store, sizeof f.store, NULL, 0).refusal == 1);
    CHECK(basilothyn_grant(t, NULL, 0, NULL, 0).refusal == 20 && basilothyn_revoke(t, NULL, 0).refusal == 20);
    CHECK(basilothyn_return(t, NULL, 0, 0, 1, 3).refusal == 20);
    CHECK(basilothyn_recall(t, NULL, 0, 0, 1, 3).refusal == 20);
    CHECK(basilothyn_locate_read(t, NULL, 0, 0, 1).refusal == 20);
    CHECK(basilothyn_locate_write(t, NULL, 0, 0, 1).refusal == 20);
    CHECK(basilothyn_bind(NULL, 0, 0, 0, NULL, 0, layout.at + 16, 15).refusal == 1);
    CHECK(basilothyn_bind(layout.at, layout.length, 0, 0, NULL, 0, layout.at + 16, 15).refusal == 1);
    CHECK(basilothyn_write_report(0, heads, NULL, 0, NULL, 0).refusal == 26);
    CHECK(basilothyn_write_report(0, heads, NULL, 0, out, sizeof out).length == 8);
    CHECK(memcmp(out, (const uint8_t[8]){0}, 8) == 0);
    out[3] = out[7] = 1;
    CHECK(basilothyn_read_statistics(NULL, 0).refusal == 1);
    CHECK(basilothyn_write_return(nothing, NULL, 0, NULL, 0).refusal == 26);
    CHECK(basilothyn_write_return(nothing, NULL, 0, out, sizeof out).length == 8);
    CHECK(memcmp(out, (const uint8_t[8]){0}, 8) == 0);
}

/* The device body stands in the layout body, as its filehandle, and the device id is the layout body's own: the same
 * answer as with copies. */
static void test_overlapping_runs(void)
{
    static const struct version_plan v = {4, 1, 512, 1024, 1};
    struct bytes device = device_body(1, "tcp", "a", 1, &v), layout, copy;
    struct basilothyn_bind_result apart, over;
    struct layout_plan p = smallest;

    p.handle_length = (uint32_t)device.length;
    layout = layout_body(p);
    memcpy(layout.at + 60, device.at, device.length);
    copy = layout;
    apart = basilothyn_bind(layout.at, layout.length, 0, 0, device.at, device.length, copy.at + 16, 4);
    over = basilothyn_bind(layout.at, layout.length, 0, 0, layout.at + 60, device.length, layout.at + 16, 4);
    CHECK(apart.refusal == 0 && apart.filehandle.start == 60 && apart.filehandle.length == 44 && apart.stateid == 36);
    CHECK(over.refusal == 0 && over.filehandle.start == 60 && over.filehandle.length == 44 && over.stateid == 36);
    CHECK(apart.version.rsize == 512 && over.version.rsize == 512 && over.version.minor == 1);
    /* The layout body in place of the device body too: its first bytes, the unit, are an address count of 0. */
    CHECK(basilothyn_bind(layout.at, layout.length, 0, 0, layout.at, layout.length, layout.at + 16, 4).refusal == 8);
}

int main(void)
{
    tested("BASILOTHYN_VERSION");
    CHECK(BASILOTHYN_VERSION == WRAPPER_VERSION);
    test_store();
    test_kinds();
    test_counts();
    test_longest();
    test_lengths();
    test_flags();
    test_versions();
    test_operations();
    test_body();
    test_texts();
    test_null_runs();
    test_overlapping_runs();
    return ended();
}
