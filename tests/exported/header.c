/*
 * Holds include/basilothyn.h to the core: every refusal, iomode and netid class against what the core answers and what
 * the scope paper says, and a call of every function with answers that the paper gives. Prints 'tested NAME' for each
 * of them and ends with 'N checks'; tests/exported/run compares the names with the header's. constants.c and
 * statistics.c have the others.
 */
#include "calls.h"

/* ---- sizes */

static uint32_t most_mirrors(void)
{
    struct layout_plan p = smallest;

    while (read_layout(layout_body(p)).refusal == 0)
        p.mirrors++;
    CHECK(read_layout(layout_body(p)).refusal == 8);
    return p.mirrors - 1;
}

static uint32_t most_servers(void)
{
    struct layout_plan p = smallest;

    p.unit = 4096;
    p.servers = 2;
    while (read_layout(layout_body(p)).refusal == 0)
        p.servers++;
    CHECK(read_layout(layout_body(p)).refusal == 8);
    return p.servers - 1;
}

static uint64_t most_segments(uint32_t iomode)
{
    struct file f = new_file();
    uint64_t count = 0;

    while (count < 1000 && grant(&f, 2 * count, 1, iomode, smallest) == 0)
        count++;
    CHECK(grant(&f, 2 * count, 1, iomode, smallest) == 23);
    CHECK((iomode == 1 ? f.table.read_count : f.table.rw_count) == count);
    return count;
}

/* The sum of the lengths of a store that are taken: there is only one. Others are 20. */
static size_t store_taken(void)
{
    static uint8_t store[40000];
    size_t sum = 0, refused = 0;

    for (size_t length = 0; length <= sizeof store; length++) {
        uint32_t refusal = basilothyn_revoke(basilothyn_empty_table(), store, length).refusal;

        sum += refusal == 0 ? length : 0;
        refused += refusal == 20;
    }
    CHECK(refused == sizeof store);
    return sum;
}

static void test_sizes(void)
{
    struct basilothyn_table table = basilothyn_empty_table();
    struct basilothyn_layout_result l;
    struct basilothyn_layout4_result l4;

    CONSTANT(BASILOTHYN_STORE_LENGTH, 32768, store_taken());
    CONSTANT(BASILOTHYN_SEGMENTS, 32, most_segments(1));
    CONSTANT(BASILOTHYN_SEGMENTS, 32, most_segments(2));
    CONSTANT(BASILOTHYN_SEGMENTS, 32, ENTRIES(table.read));
    CONSTANT(BASILOTHYN_SEGMENTS, 32, ENTRIES(table.rw));
    CONSTANT(BASILOTHYN_MIRRORS, 8, most_mirrors());
    CONSTANT(BASILOTHYN_SERVERS, 16, most_servers());
    CHECK(ENTRIES(l.starts) == 128 && ENTRIES(l4.starts) == 128);
}

/* ---- layout bodies */

static void test_layout_refusals(void)
{
    struct layout_plan two = smallest, other_unit = smallest, flagged = smallest;
    struct bytes b = layout_body(smallest);

    two.mirrors = two.servers = 2;
    two.unit = 4096;
    other_unit.unit = 1;
    flagged.flags = 16;
    CHECK(b.length == 80);
    CONSTANT(BASILOTHYN_ACCEPTED, 0, read_layout(b).refusal);
    CONSTANT(BASILOTHYN_BYTES_RUN_OUT, 1, read_layout(of_length(b, 79)).refusal);
    CONSTANT(BASILOTHYN_BYTES_RUN_OUT, 1, read_layout(of_length(b, 0)).refusal);
    CONSTANT(BASILOTHYN_BYTES_LEFT_OVER, 2, read_layout(of_length(b, 81)).refusal);
    /* The filehandle has one byte, at 60, and three of padding. */
    CONSTANT(BASILOTHYN_PADDING_NOT_ZERO, 6, read_layout(with(b, 61, 1, 1)).refusal);
    CONSTANT(BASILOTHYN_PADDING_NOT_ZERO, 6, read_layout(with(b, 63, 1, 1)).refusal);
    CONSTANT(BASILOTHYN_OUTSIDE_LIMIT, 8, read_layout(with(b, 8, 0, 4)).refusal);
    CONSTANT(BASILOTHYN_OUTSIDE_LIMIT, 8, read_layout(of_length(b, 4091)).refusal);
    /* The first mirror's server count stands at 12, the second's behind two data servers of 56 bytes. */
    CHECK(read_layout(layout_body(two)).refusal == 0);
    CONSTANT(BASILOTHYN_SERVER_COUNT_DIFFERS, 9, read_layout(with(layout_body(two), 128, 1, 4)).refusal);
    CONSTANT(BASILOTHYN_OUTSIDE_LIMIT, 8, read_layout(with(layout_body(two), 128, 17, 4)).refusal);
    CONSTANT(BASILOTHYN_UNIT_DISAGREES, 10, read_layout(with(layout_body(two), 0, 0, 8)).refusal);
    CONSTANT(BASILOTHYN_UNIT_DISAGREES, 10, read_layout(layout_body(other_unit)).refusal);
    CONSTANT(BASILOTHYN_FLAG_UNKNOWN, 11, read_layout(layout_body(flagged)).refusal);
}

static void test_layout_answer(void)
{
    struct layout_plan p = smallest;
    struct basilothyn_layout_result l;
    unsigned right = 0;

    p.unit = UINT64_C(1) << 40;
    p.mirrors = 3;
    p.servers = 2;
    p.flags = 15;
    p.hint = 77;
    l = read_layout(layout_body(p));
    CHECK(l.refusal == 0 && l.summary.unit == p.unit && l.summary.mirrors == 3 && l.summary.servers == 2);
    CHECK(l.summary.flags == 15 && l.summary.hint == 77);
    /* A mirror has a count and two data servers of 56 bytes; the first one stands at 12. */
    for (uint32_t mirror = 0; mirror < BASILOTHYN_MIRRORS; mirror++) {
        for (uint32_t stripe = 0; stripe < BASILOTHYN_SERVERS; stripe++) {
            uint32_t start = mirror < 3 && stripe < 2 ? 12 + mirror * 116 + 4 + stripe * 56 : 0;

            right += l.starts[mirror * BASILOTHYN_SERVERS + stripe] == start;
        }
    }
    CHECK(right == 128);
}

static void test_layout4(void)
{
    struct bytes b = layout4(5, 10, 1, smallest);
    struct basilothyn_layout4_result l = read_layout4(b);

    CHECK(b.length == 108 && l.refusal == 0 && l.offset == 5 && l.length == 10 && l.last == 14);
    CHECK(l.body.start == 28 && l.body.length == 80 && l.starts[0] == 16);
    CHECK(l.summary.unit == 0 && l.summary.mirrors == 1 && l.summary.servers == 1);
    CONSTANT(BASILOTHYN_READ, 1, l.iomode);
    CONSTANT(BASILOTHYN_RW, 2, read_layout4(layout4(5, 10, 2, smallest)).iomode);
    CONSTANT(BASILOTHYN_IOMODE_NOT_ALLOWED, 3, read_layout4(layout4(5, 10, 3, smallest)).refusal);
    CONSTANT(BASILOTHYN_IOMODE_NOT_ALLOWED, 3, read_layout4(layout4(5, 10, 0, smallest)).refusal);
    CONSTANT(BASILOTHYN_LAYOUT_TYPE_UNKNOWN, 4, read_layout4(with(b, 20, 3, 4)).refusal);
    CONSTANT(BASILOTHYN_LAYOUT_TYPE_UNKNOWN, 4, read_layout4(with(b, 20, 1, 4)).refusal);
    CONSTANT(BASILOTHYN_RANGE_INVALID, 5, read_layout4(layout4(WHOLE, 1, 1, smallest)).refusal);
    CONSTANT(BASILOTHYN_RANGE_INVALID, 5, read_layout4(layout4(WHOLE, 0, 1, smallest)).refusal);
    CHECK(read_layout4(layout4(WHOLE, WHOLE, 1, smallest)).last == WHOLE);
    CHECK(read_layout4(layout4(7, WHOLE, 1, smallest)).last == WHOLE);
    CHECK(read_layout4(layout4(1, WHOLE - 1, 1, smallest)).last == WHOLE - 1);
}

/* ---- device bodies, and binding */

static uint32_t class_of(const char *netid)
{
    static const struct version_plan v3 = {.version = 3, .rsize = 1, .wsize = 1};
    struct basilothyn_device_result d = read_device(device_body(1, netid, "192.0.2.1.8.1", 1, &v3));
    size_t padded = (strlen(netid) + 3) / 4 * 4;

    CHECK(d.refusal == 0 && d.address_count == 1 && d.version_count == 1);
    CHECK(d.addresses[0].text.start == 12 + padded && d.addresses[0].text.length == 13);
    return d.addresses[0].netid_class;
}

/* The paper names the classes; their numbers are in its order, 0 for another netid. */
static void test_netids(void)
{
    CONSTANT(BASILOTHYN_TCP, 1, class_of("tcp"));
    CONSTANT(BASILOTHYN_TCP6, 2, class_of("tcp6"));
    CONSTANT(BASILOTHYN_UDP, 3, class_of("udp"));
    CONSTANT(BASILOTHYN_UDP6, 4, class_of("udp6"));
    CONSTANT(BASILOTHYN_RDMA, 5, class_of("rdma"));
    CONSTANT(BASILOTHYN_RDMA6, 6, class_of("rdma6"));
    CONSTANT(BASILOTHYN_OTHER, 0, class_of("tcp7"));
    CONSTANT(BASILOTHYN_OTHER, 0, class_of("TCP"));
    CONSTANT(BASILOTHYN_OTHER, 0, class_of("tc"));
}

static void test_devices(void)
{
    struct version_plan v[9], wrong = {.version = 3, .minor = 1, .rsize = 1, .wsize = 1}, odd = {4, 1, 1, 1, 2};
    struct basilothyn_device_result d;

    for (uint32_t i = 0; i < 9; i++)
        v[i] = (struct version_plan){.version = 4, .minor = i % 3, .rsize = 100 + i, .wsize = 200 + i, .tight = i % 2};
    d = read_device(device_body(8, "tcp", "a", 8, v));
    CHECK(d.refusal == 0 && d.address_count == ENTRIES(d.addresses) && d.version_count == ENTRIES(d.versions));
    for (uint32_t i = 0; i < 8; i++) {
        struct basilothyn_version e = d.versions[i];

        CHECK(e.version == 4 && e.minor == i % 3 && e.rsize == 100 + i && e.wsize == 200 + i && e.tight == i % 2);
        CHECK(d.addresses[i].netid_class == 1);
        CHECK(d.addresses[i].text.start == 16 + 16 * i && d.addresses[i].text.length == 1);
    }
    CONSTANT(BASILOTHYN_OUTSIDE_LIMIT, 8, read_device(device_body(9, "tcp", "a", 1, v)).refusal);
    CONSTANT(BASILOTHYN_OUTSIDE_LIMIT, 8, read_device(device_body(1, "tcp", "a", 9, v)).refusal);
    CONSTANT(BASILOTHYN_BOOLEAN_INVALID, 7, read_device(device_body(1, "tcp", "a", 1, &odd)).refusal);
    CONSTANT(BASILOTHYN_VERSION_INVALID, 12, read_device(device_body(1, "tcp", "a", 1, &wrong)).refusal);
    d = read_device(device_body(1, "tcp", "a", 1, &wrong));
    CHECK(d.address_count == 0 && d.version_count == 0);
    CHECK(d.addresses[0].netid_class == 0 && d.addresses[0].text.start == 0 && d.versions[0].version == 0);
}

static void test_binding_refusals(void)
{
    struct version_plan tight = {4, 1, 512, 1024, 1}, loose = {4, 1, 512, 1024, 0};
    struct bytes device = device_body(1, "tcp", "a", 1, &tight), loosely = device_body(1, "tcp", "a", 1, &loose);
    struct layout_plan handles = smallest, stateid = smallest;

    handles.handles = 2;
    stateid.stateid = 9;
    CHECK(bind_server(smallest, 0, 0, device, 1, 4).refusal == 0);
    CONSTANT(BASILOTHYN_BEYOND_LAYOUT, 16, bind_server(smallest, 1, 0, device, 1, 4).refusal);
    CONSTANT(BASILOTHYN_BEYOND_LAYOUT, 16, bind_server(smallest, 0, 1, device, 1, 4).refusal);
    CONSTANT(BASILOTHYN_OUTSIDE_LIMIT, 8, bind_server(smallest, 0, 0, device, 1, 16).refusal);
    CONSTANT(BASILOTHYN_BINDING_DIFFERS, 13, bind_server(smallest, 0, 0, device, 2, 4).refusal);
    CONSTANT(BASILOTHYN_BINDING_DIFFERS, 13, bind_server(handles, 0, 0, device, 1, 4).refusal);
    CONSTANT(BASILOTHYN_NO_SUPPORTED_VERSION, 14, bind_server(smallest, 0, 0, device, 1, 11).refusal);
    CONSTANT(BASILOTHYN_STATEID_NOT_ZERO, 15, bind_server(stateid, 0, 0, loosely, 1, 4).refusal);
    CHECK(bind_server(stateid, 0, 0, device, 1, 4).refusal == 0);
}

/* Two entries and two filehandles: the first entry that is supported, and the filehandle at its place. */
static void test_binding_answer(void)
{
    static const struct version_plan v[2] = {{4, 2, 512, 1024, 1}, {3, 0, 2048, 4096, 0}};
    struct bytes device = device_body(1, "tcp", "a", 2, v);
    struct layout_plan p = smallest;
    struct basilothyn_bind_result b;

    p.handles = 2;
    p.user = "1000";
    p.group = "100";
    /* The data server starts at 16: device id, efficiency, stateid at 36, count at 52, filehandles of one byte at 60
     * and 68, user at 76, group at 84. */
    b = bind_server(p, 0, 0, device, 1, 9);
    CHECK(b.refusal == 0 && b.entry == 0 && b.version.version == 4 && b.version.minor == 2 && b.version.tight == 1);
    CHECK(b.version.rsize == 512 && b.version.wsize == 1024 && b.filehandle.start == 60 && b.filehandle.length == 1);
    CHECK(b.stateid == 36 && b.user.start == 0 && b.user.length == 0 && b.group.start == 0 && b.group.length == 0);
    b = bind_server(p, 0, 0, device, 1, 1);
    CHECK(b.refusal == 0 && b.entry == 1 && b.version.version == 3 && b.version.minor == 0 && b.version.tight == 0);
    CHECK(b.version.rsize == 2048 && b.version.wsize == 4096 && b.filehandle.start == 68 && b.filehandle.length == 1);
    CHECK(b.stateid == 0 && b.user.start == 76 && b.user.length == 4 && b.group.start == 84 && b.group.length == 3);
}

/* ---- the table */

static void test_returns(void)
{
    struct file f = new_file(), other;

    CHECK(f.table.read_count == 0 && f.table.rw_count == 0 && is_segment(f.table.rw[0], 0, 0, 0, 0));
    CHECK(give_back(&f, 0, 100, 2) == 0);
    CHECK(grant(&f, 0, 100, 2, smallest) == 0 && f.table.rw_count == 1 && f.table.read_count == 0);
    CHECK(give_back(&f, 40, 20, 2) == 0 && f.table.rw_count == 2);
    CHECK(is_segment(f.table.rw[0], 0, 39, 1, 0) && is_segment(f.table.rw[1], 60, 99, 1, 0));
    CHECK(is_segment(f.table.rw[2], 0, 0, 0, 0));
    other = f;
    CHECK(grant(&f, 40, 20, 2, smallest) == 0 && f.table.rw_count == 1 && is_segment(f.table.rw[0], 0, 99, 1, 0));
    CHECK(grant(&other, 40, 20, 2, body_number(2)) == 0 && other.table.rw_count == 3);
    CHECK(is_segment(other.table.rw[1], 40, 59, 1, 1));
    CONSTANT(BASILOTHYN_HELD_UNDER_OTHER_BODY, 21, grant(&other, 50, 1, 2, body_number(3)));
    CONSTANT(BASILOTHYN_IOMODE_NOT_ALLOWED, 3, give_back(&f, 0, 1, 4));
    CONSTANT(BASILOTHYN_RANGE_INVALID, 5, give_back(&f, WHOLE, 1, 4));
    CHECK(give_back(&f, WHOLE, WHOLE, 3) == 0);
}

static void test_recalls(void)
{
    struct file f = new_file();

    CONSTANT(BASILOTHYN_NOTHING_HELD, 25, recall(&f, 0, WHOLE, 3));
    CHECK(grant(&f, 0, 100, 2, smallest) == 0);
    CHECK(recall(&f, 10, 10, 2) == 0 && f.table.rw_count == 3 && is_segment(f.table.rw[1], 10, 19, 2, 0));
    CONSTANT(BASILOTHYN_RIGHT_MISSING, 17, locate_write(&f, 10, 1).refusal);
    CHECK(locate_write(&f, 20, 1).refusal == 0);
    CONSTANT(BASILOTHYN_RECALLED_IN_RANGE, 22, grant(&f, 19, 5, 2, smallest));
    CONSTANT(BASILOTHYN_IOMODE_NOT_ALLOWED, 3, recall(&f, 0, 1, 0));
}

/* The number of the highest iomode that a return takes. */
static uint32_t highest_iomode(void)
{
    struct file f = new_file();
    uint32_t iomode = 1;

    while (give_back(&f, 0, 1, iomode) == 0)
        iomode++;
    return iomode - 1;
}

/* A recall takes the right of its own iomode only; ANY is both. */
static void test_iomodes(void)
{
    struct file f = new_file(), read_recalled, rw_recalled;

    CONSTANT(BASILOTHYN_ANY, 3, highest_iomode());
    CHECK(grant(&f, 0, 100, BASILOTHYN_READ, smallest) == 0);
    CONSTANT(BASILOTHYN_READ, 1, locate_read(&f, 0, 1).iomode);
    CHECK(locate_write(&f, 0, 1).refusal == 17);
    CHECK(grant(&f, 0, 100, BASILOTHYN_RW, smallest) == 0);
    CONSTANT(BASILOTHYN_RW, 2, locate_read(&f, 0, 1).iomode);
    CONSTANT(BASILOTHYN_RW, 2, locate_write(&f, 0, 1).iomode);
    read_recalled = rw_recalled = f;
    CHECK(recall(&read_recalled, 0, 100, BASILOTHYN_READ) == 0);
    CONSTANT(BASILOTHYN_RW, 2, locate_read(&read_recalled, 0, 1).iomode);
    CHECK(locate_write(&read_recalled, 0, 1).refusal == 0);
    CHECK(recall(&rw_recalled, 0, 100, BASILOTHYN_RW) == 0);
    CONSTANT(BASILOTHYN_READ, 1, locate_read(&rw_recalled, 0, 1).iomode);
    CHECK(locate_write(&rw_recalled, 0, 1).refusal == 17);
    CHECK(recall(&f, 0, 100, BASILOTHYN_ANY) == 0);
    CHECK(locate_read(&f, 0, 1).refusal == 17 && locate_write(&f, 0, 1).refusal == 17);
}

static void test_full_table(void)
{
    struct file f = new_file();

    for (uint64_t i = 0; i < 32; i++)
        CHECK(grant(&f, 10 * i, 3, 2, smallest) == 0);
    CONSTANT(BASILOTHYN_TOO_MANY_SEGMENTS, 23, give_back(&f, 11, 1, 2));
    CONSTANT(BASILOTHYN_TOO_MANY_SEGMENTS, 23, recall(&f, 11, 1, 3));
    CHECK(give_back(&f, 0, WHOLE, 2) == 0 && f.table.rw_count == 0);
}

/* Eight bodies held: a ninth is refused, and takes the slot of one that is wholly returned. */
static void test_full_store(void)
{
    static const uint8_t zeros[4096];
    struct file f = new_file();
    struct bytes ninth = layout_body(body_number(9));
    const uint8_t *slot = f.store + 3 * 4096;

    for (uint8_t i = 0; i < 8; i++)
        CHECK(grant(&f, i, 1, 2, body_number(i)) == 0);
    CONSTANT(BASILOTHYN_NO_FREE_SLOT, 24, grant(&f, 8, 1, 2, body_number(9)));
    CHECK(give_back(&f, 3, 1, 2) == 0 && memcmp(slot, zeros, sizeof zeros) == 0);
    CHECK(grant(&f, 8, 1, 2, body_number(9)) == 0 && is_segment(f.table.rw[7], 8, 8, 1, 3));
    /* Length and kind, little-endian, the body, zeros. */
    CHECK(memcmp(slot, (const uint8_t[]){80, 0, 0, 0, 4, 0}, 6) == 0);
    CHECK(memcmp(slot + 6, ninth.at, 80) == 0 && memcmp(slot + 86, zeros, 4096 - 86) == 0);
}

static void test_unsound(void)
{
    struct file f = new_file(), empty = f;

    CHECK(grant(&f, 0, 100, 2, smallest) == 0);
    f.table.rw[0].kind = 3;
    CONSTANT(BASILOTHYN_UNSOUND, 20, revoke(&f));
    CONSTANT(BASILOTHYN_UNSOUND, 20, locate_read(&f, 0, 1).refusal);
    f.table.rw[0].kind = 1;
    f.store[4095] = 1;
    CONSTANT(BASILOTHYN_UNSOUND, 20, locate_write(&f, 0, 1).refusal);
    f.store[4095] = 0;
    CHECK(revoke(&f) == 0 && memcmp(&f, &empty, sizeof f) == 0);
}

/* ---- where an I/O goes */

static struct file striped(uint64_t unit, uint32_t servers)
{
    struct file f = new_file();
    struct layout_plan p = smallest;

    p.unit = unit;
    p.servers = servers;
    CHECK(grant(&f, 0, WHOLE, 2, p) == 0);
    return f;
}

static void test_stripes(void)
{
    struct file f = striped(4096, 3), wide = striped(UINT64_C(1) << 62, 4);
    struct basilothyn_locate_result r = locate_write(&f, 4095, 2);

    CHECK(r.refusal == 0 && r.iomode == 2 && r.slot == 0 && r.stripe == 0);
    CHECK(r.offset == 4095 && r.length == 1 && r.mirrors == 1);
    r = locate_read(&f, UINT64_C(17592186044416), 1);
    CHECK(r.refusal == 0 && r.stripe == 1 && r.offset == UINT64_C(17592186044416) && r.length == 1);
    CHECK(locate_write(&wide, UINT64_C(13835058055282163712), 1).stripe == 3);
    /* A request has no special length. */
    CHECK(locate_write(&f, 0, WHOLE).refusal == 0);
    CONSTANT(BASILOTHYN_RANGE_INVALID, 5, locate_write(&f, 1, WHOLE).refusal);
    r = locate_read(&f, 0, 0);
    CONSTANT(BASILOTHYN_RANGE_INVALID, 5, r.refusal);
    CHECK(r.iomode == 0 && r.slot == 0 && r.stripe == 0 && r.offset == 0 && r.length == 0 && r.mirrors == 0);
}

/* READ on 0..99 in slot 0, one server; RW on 10..17 in slot 1, two servers, of which the second has these bytes. */
static struct file in_both_iomodes(uint32_t read_flags, uint32_t rw_flags)
{
    struct file f = new_file();
    struct layout_plan read = smallest, rw = smallest;

    read.flags = read_flags;
    rw.flags = rw_flags;
    rw.unit = 10;
    rw.servers = 2;
    CHECK(grant(&f, 0, 100, BASILOTHYN_READ, read) == 0);
    CHECK(grant(&f, 10, 8, BASILOTHYN_RW, rw) == 0);
    return f;
}

static int goes(struct basilothyn_locate_result r, uint32_t iomode, uint32_t slot, uint32_t stripe, uint64_t length)
{
    return r.refusal == 0 && r.iomode == iomode && r.slot == slot && r.stripe == stripe && r.length == length;
}

/* A read is served by RW under a body without flag 4, else by READ, whatever the flags of READ's body. */
static void test_reads(void)
{
    for (uint32_t read_flags = 0; read_flags < 16; read_flags++) {
        struct file both = in_both_iomodes(read_flags, 11), barred = in_both_iomodes(read_flags, 4), recalled = both;

        CHECK(goes(locate_read(&both, 12, 90), BASILOTHYN_RW, 1, 1, 6));
        CHECK(goes(locate_read(&both, 9, 90), BASILOTHYN_READ, 0, 0, 90));
        CHECK(goes(locate_read(&both, 18, 90), BASILOTHYN_READ, 0, 0, 82));
        CHECK(goes(locate_read(&barred, 12, 90), BASILOTHYN_READ, 0, 0, 88));
        CHECK(goes(locate_write(&barred, 12, 90), BASILOTHYN_RW, 1, 1, 6));
        CHECK(recall(&recalled, 12, 1, BASILOTHYN_RW) == 0);
        CHECK(goes(locate_read(&recalled, 12, 90), BASILOTHYN_READ, 0, 0, 88));
        CHECK(goes(locate_read(&recalled, 13, 90), BASILOTHYN_RW, 1, 1, 5));
        CHECK(give_back(&recalled, 0, WHOLE, BASILOTHYN_READ) == 0 && locate_read(&recalled, 12, 90).refusal == 17);
    }
}

/* A read goes to the highest efficiency, the lowest mirror on a tie; a write to all, with flag 8 to that one. With flag
 * 4 RW serves no read. */
static void test_mirrors(void)
{
    struct layout_plan p = smallest, one_mirror, no_reads;
    struct file all = new_file(), one = new_file(), unread = new_file();

    p.mirrors = 3;
    p.efficiency[0][0] = 5;
    p.efficiency[1][0] = p.efficiency[2][0] = 9;
    one_mirror = no_reads = p;
    one_mirror.flags = 8;
    no_reads.flags = 4;
    CHECK(grant(&all, 0, 100, 2, p) == 0);
    CHECK(grant(&one, 0, 100, 2, one_mirror) == 0);
    CHECK(grant(&unread, 0, 100, 2, no_reads) == 0);
    CHECK(locate_read(&all, 0, 1).mirrors == 2 && locate_write(&all, 0, 1).mirrors == 7);
    CHECK(locate_read(&one, 0, 1).mirrors == 2 && locate_write(&one, 0, 1).mirrors == 2);
    CHECK(locate_read(&unread, 0, 1).refusal == 17 && locate_write(&unread, 0, 1).mirrors == 7);
    CHECK(locate_write(&all, 90, 20).length == 10);
}

/* Units of 10 bytes on three servers a mirror. The best server is mirror 2's in stripe 0, mirror 0's in stripe 1 (a
 * number that is negative if signed) and, of a tie between 1 and 2, mirror 1's in stripe 2. With mirror and stripe
 * exchanged each answer would be another. */
static const struct layout_plan best_by_stripe = {
    .unit = 10, .mirrors = 3, .servers = 3, .handles = 1, .handle_length = 1, .device = 1, .user = "", .group = "",
    .efficiency = {{8, UINT32_MAX, 0}, {1, 5, 7}, {9, 1, 7}}};

/* The mirrors of a request of 30 bytes that begins at the first, then at the last byte of each of four units. */
static int mirrors_are(struct file *f, int write, uint32_t first, uint32_t second, uint32_t third)
{
    const uint32_t expected[4] = {first, second, third, first};
    int right = 1;

    for (uint64_t unit = 0; unit < 4; unit++) {
        for (uint64_t at = 10 * unit; at < 10 * unit + 10; at += 9) {
            struct basilothyn_locate_result r = write ? locate_write(f, at, 30) : locate_read(f, at, 30);

            right &= r.refusal == 0 && r.stripe == unit % 3 && r.length == 10 - at % 10 && r.mirrors == expected[unit];
        }
    }
    return right;
}

/* A mirror is judged by its server of the stripe of the request's first byte: in a read, and in a write with flag 8. */
static void test_mirrors_by_stripe(void)
{
    struct layout_plan all = best_by_stripe, one = best_by_stripe;
    struct file read = new_file(), rw = new_file(), one_mirror = new_file();

    one.flags = 8;
    CHECK(grant(&read, 0, WHOLE, BASILOTHYN_READ, all) == 0);
    CHECK(grant(&rw, 0, WHOLE, BASILOTHYN_RW, all) == 0);
    CHECK(grant(&one_mirror, 0, WHOLE, BASILOTHYN_RW, one) == 0);
    CHECK(mirrors_are(&read, 0, 4, 1, 2));
    CHECK(mirrors_are(&rw, 0, 4, 1, 2) && mirrors_are(&rw, 1, 7, 7, 7));
    CHECK(mirrors_are(&one_mirror, 0, 4, 1, 2) && mirrors_are(&one_mirror, 1, 4, 1, 2));
}

/* ---- error reports */

/* As many reports as report_body makes, of as many errors each. */
static struct basilothyn_write_result write_reports(uint32_t reports, uint32_t errors, uint8_t *out, size_t length)
{
    struct basilothyn_report_heads heads = {.heads = {{.offset = 0}}};
    struct basilothyn_error list[128];
    uint32_t count = 0;

    for (uint32_t i = 0; i < reports && i < ENTRIES(heads.heads); i++) {
        heads.heads[i] = (struct basilothyn_report_head){.offset = 1, .length = 2, .errors = errors};
        memset(heads.heads[i].stateid, 3, 16);
        for (uint32_t k = 0; k < errors; k++, count++)
            list[count] = error_of((uint8_t)count, count + 1, 38);
    }
    return CALL(basilothyn_write_report)(reports, heads, list, count, out, length);
}

/* What is written is the body that the paper describes, and the bytes behind it stay. */
static void test_written(uint32_t reports, uint32_t errors, size_t length)
{
    static uint8_t out[4096];
    struct bytes body = report_body(reports, errors);
    struct basilothyn_write_result w;

    memset(out, 165, sizeof out);
    CHECK(body.length == length);
    w = write_reports(reports, errors, out, length - 1);
    CONSTANT(BASILOTHYN_OUTPUT_TOO_SHORT, 26, w.refusal);
    CHECK(w.length == 0 && out[0] == 165);
    w = write_reports(reports, errors, out, sizeof out);
    CHECK(w.refusal == 0 && w.length == length && memcmp(out, body.at, length) == 0);
    CHECK(out[length] == 165 && out[sizeof out - 1] == 165);
}

static void test_write_refusals(void)
{
    struct basilothyn_report_heads heads = {.heads = {{.offset = 1, .length = 2, .errors = 1}}};
    struct basilothyn_error no_status = error_of(1, 0, 38), no_io = error_of(1, 5, 9), good = error_of(1, 5, 25);
    uint8_t out[68];

    CONSTANT(BASILOTHYN_OUTSIDE_LIMIT, 8, write_reports(9, 1, out, sizeof out).refusal);
    CONSTANT(BASILOTHYN_OUTSIDE_LIMIT, 8, basilothyn_write_report(1, heads, &good, 0, out, sizeof out).refusal);
    CONSTANT(BASILOTHYN_ERROR_INVALID, 27, basilothyn_write_report(1, heads, &no_status, 1, out, sizeof out).refusal);
    CONSTANT(BASILOTHYN_ERROR_INVALID, 27, basilothyn_write_report(1, heads, &no_io, 1, out, sizeof out).refusal);
    CHECK(basilothyn_write_report(1, heads, &good, 1, out, sizeof out).refusal == 0);
    heads.heads[0].length = 0;
    CONSTANT(BASILOTHYN_RANGE_INVALID, 5, basilothyn_write_report(1, heads, &good, 1, out, sizeof out).refusal);
}

/* The longest body: every head, and every error at its place. */
static void test_read_reports(void)
{
    struct bytes body = report_body(8, 16);
    struct basilothyn_reports_result r = read_reports(body);

    CHECK(r.refusal == 0 && r.count == ENTRIES(r.heads) && ENTRIES(r.errors_at) == 8);
    for (uint32_t i = 0; i < r.count; i++) {
        CHECK(r.heads[i].offset == 1 && r.heads[i].length == 2 && r.heads[i].errors == 16);
        CHECK(r.heads[i].stateid[0] == 3 && r.heads[i].stateid[15] == 3);
        CHECK(r.errors_at[i] == 4 + 36 + i * (36 + 16 * 24));
        for (uint32_t k = 0; k < r.heads[i].errors; k++) {
            struct basilothyn_error_result e = read_error(body, r.errors_at[i] + 24 * (size_t)k);

            CHECK(e.refusal == 0 && e.device == r.errors_at[i] + 24 * (size_t)k && body.at[e.device] == i * 16 + k);
            CHECK(e.status == i * 16 + k + 1 && e.operation == 38);
        }
    }
    CONSTANT(BASILOTHYN_OUTSIDE_LIMIT, 8, read_reports(report_body(9, 1)).refusal);
    CONSTANT(BASILOTHYN_OUTSIDE_LIMIT, 8, read_reports(report_body(1, 17)).refusal);
    CONSTANT(BASILOTHYN_OUTSIDE_LIMIT, 8, read_reports(with(report_body(1, 1), 64, 9, 4)).refusal);
    CONSTANT(BASILOTHYN_BYTES_RUN_OUT, 1, read_reports(with(report_body(1, 1), 64, 8, 4)).refusal);
    CONSTANT(BASILOTHYN_BYTES_LEFT_OVER, 2, read_reports(of_length(body, 3369)).refusal);
    CONSTANT(BASILOTHYN_RANGE_INVALID, 5, read_reports(with(body, 12, 0, 8)).refusal);
    CHECK(read_reports(with(body, 12, 0, 8)).count == 0);
}

static void test_read_error(void)
{
    struct bytes body = report_body(1, 1);
    struct basilothyn_error_result e = read_error(with(body, 56, 0, 4), 40);

    /* The one error stands at 40: status at 56, operation at 60, end at 64. */
    CONSTANT(BASILOTHYN_ERROR_INVALID, 27, e.refusal);
    CHECK(e.device == 0 && e.status == 0 && e.operation == 0);
    CONSTANT(BASILOTHYN_ERROR_INVALID, 27, read_error(with(body, 60, 39, 4), 40).refusal);
    CONSTANT(BASILOTHYN_ERROR_INVALID, 27, read_reports(with(body, 60, 39, 4)).refusal);
    CONSTANT(BASILOTHYN_BYTES_RUN_OUT, 1, read_error(of_length(body, 63), 40).refusal);
    CONSTANT(BASILOTHYN_BYTES_RUN_OUT, 1, read_error(body, SIZE_MAX).refusal);
    CHECK(read_error(with(body, 60, 5, 4), 40).operation == 5 && read_error(with(body, 60, 25, 4), 40).operation == 25);
}

int main(void)
{
    test_sizes();
    test_layout_refusals();
    test_layout_answer();
    test_layout4();
    test_netids();
    test_devices();
    test_binding_refusals();
    test_binding_answer();
    test_returns();
    test_recalls();
    test_iomodes();
    test_full_table();
    test_full_store();
    test_unsound();
    test_stripes();
    test_reads();
    test_mirrors();
    test_mirrors_by_stripe();
    test_written(0, 0, 8);
    test_written(1, 1, 68);
    test_written(8, 16, 3368);
    test_write_refusals();
    test_read_reports();
    test_read_error();
    return ended();
}
