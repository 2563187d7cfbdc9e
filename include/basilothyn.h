/*
 * Basilothyn: the pNFS client core, for C. docs/DRIVER.md explains how a client uses it.
 *
 * A file has one table (which bytes are held, in which iomode, under which layout body) and one store (the bodies).
 * The table goes in and comes out by value; the store is borrowed for the time of a call. Nothing is kept between
 * calls, nothing is allocated, and no call fails in another way than by a refusal. A call that is refused returns the
 * table that it was handed and changes no byte that it borrowed.
 *
 * After each event the caller keeps the table that came back. Nothing notices an old one: a lookup that is handed the
 * table from before a recall answers as if there had been no recall, and the write goes where it no longer may.
 *
 * A borrowed run is a pointer and a length, in bytes; for a list of errors in records. The pointer must be valid for
 * that many; where the length is 0, nothing is read or written through it, and it may be NULL. Runs that a call only
 * reads, the const ones, may overlap. The run that it writes to must overlap no other run of the call.
 *
 * A body is handed over as it came in the NFS message, with its numbers in big-endian order. Numbers in the structs
 * are the machine's.
 *
 * Table and store of a file have 34,320 bytes. The archive is for user space on x86-64, in the System V calling
 * convention; it uses SSE2 and nothing newer, and three functions of the C library: memcpy, memmove and memset.
 */
#ifndef BASILOTHYN_H
#define BASILOTHYN_H

#include <stddef.h>
#include <stdint.h>

#ifdef __cplusplus
extern "C" {
#endif

/* The version of what this header declares, that of wrapper/Cargo.toml: 10000 * major + 100 * minor + patch. */
#define BASILOTHYN_VERSION 100

/* Sizes of what the caller keeps. */
enum {
    BASILOTHYN_SEGMENTS = 32,        /* the most segments of an iomode */
    BASILOTHYN_SLOTS = 8,            /* the slots of a store, each for one layout body */
    BASILOTHYN_SLOT_LENGTH = 4096,   /* the bytes of a slot */
    BASILOTHYN_STORE_LENGTH = 32768, /* the bytes of a store */
    BASILOTHYN_STACK = 24576         /* enough stack for any call, its arguments and its result; measured */
};

/* The most of each in a body. */
enum {
    BASILOTHYN_MIRRORS = 8,     /* mirrors of a layout */
    BASILOTHYN_SERVERS = 16,    /* data servers of a mirror */
    BASILOTHYN_FILEHANDLES = 8, /* filehandles of a data server */
    BASILOTHYN_ADDRESSES = 8,   /* addresses of a device */
    BASILOTHYN_VERSIONS = 8,    /* version entries of a device */
    BASILOTHYN_REPORTS = 8,     /* error reports of a LAYOUTRETURN */
    BASILOTHYN_ERRORS = 16,     /* errors of a report */
    BASILOTHYN_STATISTICS = 8   /* records of statistics of a LAYOUTRETURN */
};

/* Lengths in bytes. No longer body of a kind is accepted than the longest. */
enum {
    BASILOTHYN_LONGEST_LAYOUT = 4088,
    BASILOTHYN_LONGEST_LAYOUT4 = 4116,
    BASILOTHYN_LONGEST_DEVICE = 808,
    BASILOTHYN_LONGEST_REPORT = 3368, /* the body of a LAYOUTRETURN without statistics */
    BASILOTHYN_LONGEST_RETURN = 6856, /* and with statistics */
    BASILOTHYN_LONGEST_NETID = 8,
    BASILOTHYN_LONGEST_ADDRESS = 64,
    BASILOTHYN_LONGEST_FILEHANDLE = 128,
    BASILOTHYN_DEVICE_ID_LENGTH = 16,
    BASILOTHYN_STATEID_LENGTH = 16,
    BASILOTHYN_ERROR_LENGTH = 24 /* one error of a report body */
};

/* The iomodes of NFS: a grant takes READ or RW, a return and a recall all three. */
enum { BASILOTHYN_READ = 1, BASILOTHYN_RW = 2, BASILOTHYN_ANY = 3 };

/* A range is an offset and a length above 0. A length of 2^64 - 1 means through byte 2^64 - 1, from any offset; with
 * any other, offset + length is at most 2^64 - 1. An I/O request, an offset and a length above 0, has no special
 * length: offset + length is at most 2^64 - 1, always. All else is refused with 5. */

/* The field refusal of a result: 0, or why the call refuses. */
enum basilothyn_refusal {
    BASILOTHYN_ACCEPTED = 0,               /* accepted */
    BASILOTHYN_BYTES_RUN_OUT = 1,          /* the bytes run out before an item is complete */
    BASILOTHYN_BYTES_LEFT_OVER = 2,        /* bytes are left over */
    BASILOTHYN_IOMODE_NOT_ALLOWED = 3,     /* the iomode is not allowed here */
    BASILOTHYN_LAYOUT_TYPE_UNKNOWN = 4,    /* the layout type is not 4, flexible files */
    BASILOTHYN_RANGE_INVALID = 5,          /* a range or an I/O request breaks the rules */
    BASILOTHYN_PADDING_NOT_ZERO = 6,       /* a padding byte is not 0 */
    BASILOTHYN_BOOLEAN_INVALID = 7,        /* a boolean is neither 0 nor 1 */
    BASILOTHYN_OUTSIDE_LIMIT = 8,          /* a count or length is outside its limit */
    BASILOTHYN_SERVER_COUNT_DIFFERS = 9,   /* a later mirror's server count differs from the first's */
    BASILOTHYN_UNIT_DISAGREES = 10,        /* stripe unit and server count disagree */
    BASILOTHYN_FLAG_UNKNOWN = 11,          /* an unknown flag bit */
    BASILOTHYN_VERSION_INVALID = 12,       /* a version entry breaks its rule */
    BASILOTHYN_BINDING_DIFFERS = 13,       /* device id, or filehandle and version counts, differ in binding */
    BASILOTHYN_NO_SUPPORTED_VERSION = 14,  /* no version that the caller speaks */
    BASILOTHYN_STATEID_NOT_ZERO = 15,      /* version 4 over a loosely coupled server, and the stateid is not zero */
    BASILOTHYN_BEYOND_LAYOUT = 16,         /* the mirror or stripe number is beyond the layout */
    BASILOTHYN_RIGHT_MISSING = 17,         /* the right for an I/O is missing at its first byte */
    BASILOTHYN_UNSOUND = 20,               /* table or store is unsound */
    BASILOTHYN_HELD_UNDER_OTHER_BODY = 21, /* a byte of the grant is held under another body */
    BASILOTHYN_RECALLED_IN_RANGE = 22,     /* a byte of the grant is recalled */
    BASILOTHYN_TOO_MANY_SEGMENTS = 23,     /* more than 32 segments in an iomode */
    BASILOTHYN_NO_FREE_SLOT = 24,          /* no slot is left for a new body */
    BASILOTHYN_NOTHING_HELD = 25,          /* a recall meets nothing that is held */
    BASILOTHYN_OUTPUT_TOO_SHORT = 26,      /* the output is too short */
    BASILOTHYN_ERROR_INVALID = 27,         /* an error's status or operation is not allowed */
    BASILOTHYN_TIME_INVALID = 28           /* a time has 1,000,000,000 nanoseconds or more, or negative seconds */
};

/* A refusal in the words above. */
static inline const char *basilothyn_refusal_text(uint32_t refusal)
{
    static const char *const texts[] = {
        "accepted",
        "the bytes run out before an item is complete",
        "bytes are left over",
        "the iomode is not allowed here",
        "the layout type is not 4, flexible files",
        "a range or an I/O request breaks the rules",
        "a padding byte is not 0",
        "a boolean is neither 0 nor 1",
        "a count or length is outside its limit",
        "a later mirror's server count differs from the first's",
        "stripe unit and server count disagree",
        "an unknown flag bit",
        "a version entry breaks its rule",
        "device id, or filehandle and version counts, differ in binding",
        "no version that the caller speaks",
        "version 4 over a loosely coupled server, and the stateid is not zero",
        "the mirror or stripe number is beyond the layout",
        "the right for an I/O is missing at its first byte",
        NULL,
        NULL,
        "table or store is unsound",
        "a byte of the grant is held under another body",
        "a byte of the grant is recalled",
        "more than 32 segments in an iomode",
        "no slot is left for a new body",
        "a recall meets nothing that is held",
        "the output is too short",
        "an error's status or operation is not allowed",
        "a time has 1,000,000,000 nanoseconds or more, or negative seconds"
    };
    const char *text = refusal < sizeof texts / sizeof texts[0] ? texts[refusal] : NULL;

    return text ? text : "no refusal has this number";
}

/* ---- the table */

/* The kinds of a right. */
enum { BASILOTHYN_KIND_NONE = 0, BASILOTHYN_KIND_GRANTED = 1, BASILOTHYN_KIND_RECALLED = 2 };

/* The bytes first to last, with one right, under the body in a slot; without a right the slot is 0. */
struct basilothyn_segment {
    uint64_t first;
    uint64_t last;
    uint32_t kind;
    uint32_t slot;
};

/* All 32 entries of each iomode; the first read_count, rw_count of them are in use, the others are zeros. Treat it as
 * opaque and hand back what the last call returned: numbers that are no table are refused with 20. */
struct basilothyn_table {
    struct basilothyn_segment read[BASILOTHYN_SEGMENTS];
    struct basilothyn_segment rw[BASILOTHYN_SEGMENTS];
    uint64_t read_count;
    uint64_t rw_count;
};

/* The store: slot n starts at byte 4,096 * n. It holds the length of a layout body (4 bytes, little-endian), 4 (2
 * bytes, little-endian), the body, and zeros to the slot's end. A slot that no segment names is all zeros. The bytes
 * may be read between calls, but only calls may change them. */

/* The layout body in a slot, until an event clears the slot; in a clear slot its length is 0. NULL and 0 where there
 * is no such slot, or where the slot's length is above that of any body. */
static inline const uint8_t *basilothyn_body(const uint8_t *store, uint32_t slot, size_t *length)
{
    const uint8_t *s;

    *length = 0;
    if (slot >= BASILOTHYN_SLOTS)
        return NULL;
    s = store + (size_t)slot * BASILOTHYN_SLOT_LENGTH;
    if (s[2] != 0 || s[3] != 0 || (s[0] | s[1] << 8) > BASILOTHYN_LONGEST_LAYOUT)
        return NULL;
    *length = (size_t)(s[0] | s[1] << 8);
    return s + 6;
}

/* The result of an event: the refusal, and the table from now on (after a refusal the one handed over). Keep it. */
struct basilothyn_event_result {
    uint32_t refusal;
    struct basilothyn_table table;
};

/* The table of a file with no byte held. Its store is 32,768 zero bytes. */
struct basilothyn_table basilothyn_empty_table(void);

/* A grant: a layout4 as in the reply to LAYOUTGET. Its range becomes granted in its iomode under its body, which is
 * stored in a slot unless it is there already. Refusals in order: 20; those of the layout4 (1 to 6, 8 to 11); 21, 22,
 * 24, 23. A layout that is refused must not be used: let the I/O in its range end, send LAYOUTRETURN for it, and then
 * call basilothyn_return, since that took back what was held there before, too. On 23 and 24 return something else as
 * well before the next LAYOUTGET. */
struct basilothyn_event_result basilothyn_grant(struct basilothyn_table table, uint8_t *store, size_t store_length,
                                                const uint8_t *bytes, size_t length);

/* A return: the range becomes free in the iomode (READ, RW or ANY), whatever it was, and slots that no segment names
 * any more are zeroed. Bytes that are not held may be among them. Refusals in order: 20, 5, 3, 23. Call it when
 * LAYOUTRETURN is answered with status 0. On BAD_STATEID, EXPIRED and ADMIN_REVOKED call basilothyn_revoke; on DELAY,
 * GRACE and OLD_STATEID the table stays, start no I/O in the range, and send LAYOUTRETURN again. */
struct basilothyn_event_result basilothyn_return(struct basilothyn_table table, uint8_t *store, size_t store_length,
                                                 uint64_t offset, uint64_t length, uint32_t iomode);

/* A recall: what is granted in the range and iomode becomes recalled; from now on that iomode serves no I/O there.
 * The other still may: a recall of READ changes no answer to a write, and none to a read where RW is granted under a
 * body without flag 4; after a recall of RW a read goes through READ where that is granted. A recall of a file system
 * or of all layouts is one of each of its files, whole. Refusals in order: 20, 5, 3, 25, 23. What to answer the
 * server: on 5 NFS4ERR_INVAL, on 3 NFS4ERR_BADIOMODE, on 25 NFS4ERR_NOMATCHING_LAYOUT, on 23 and 20 NFS4ERR_DELAY. */
struct basilothyn_event_result basilothyn_recall(struct basilothyn_table table, uint8_t *store, size_t store_length,
                                                 uint64_t offset, uint64_t length, uint32_t iomode);

/* A revoke: every right is gone, and the store is zeros. Refusal: 20. */
struct basilothyn_event_result basilothyn_revoke(struct basilothyn_table table, uint8_t *store, size_t store_length);

/* ---- where an I/O goes */

/* The first piece of a request: length bytes from offset on go to the data server with this stripe number in each
 * mirror whose bit is set in mirrors (bit 0 is mirror 0), at the same offset there. iomode is the one that serves,
 * slot is the number of the layout body's slot. After a refusal all but the refusal is 0. */
struct basilothyn_locate_result {
    uint32_t refusal;
    uint32_t iomode;
    uint32_t slot;
    uint32_t stripe;
    uint64_t offset;
    uint64_t length;
    uint32_t mirrors;
};

/* Where a read goes: to one mirror, the one whose data server of the piece's stripe has the highest efficiency, the
 * lowest number on a tie; so the next piece may go to another mirror. It is served by RW under a body without flag 4,
 * else by READ. Where that data server is down, the one with the same stripe number in any other mirror of the body
 * may serve, but for bytes that were written under flag 8 and are not yet committed (see the write). Refusals in
 * order: 20, 5, 17. Ask again after the piece for the rest. */
struct basilothyn_locate_result basilothyn_locate_read(struct basilothyn_table table, const uint8_t *store,
                                                       size_t store_length, uint64_t offset, uint64_t length);

/* Where a write goes: to every mirror, or with flag 8 to one, picked as for a read, piece by piece. It is served by
 * RW. Bytes that were written unstably to one mirror are read from it until COMMIT is answered; a lookup for a read
 * that READ serves, or RW under another body, may name another. Refusals in order: 20, 5, 17. Ask again likewise. */
struct basilothyn_locate_result basilothyn_locate_write(struct basilothyn_table table, const uint8_t *store,
                                                        size_t store_length, uint64_t offset, uint64_t length);

/* ---- the bodies of the wire
 *
 * An offset is counted from the first byte of the body handed over. After a refusal all but the refusal is 0. */

/* Some bytes of a body: the offset of the first, and how many they are. */
struct basilothyn_part {
    size_t start;
    size_t length;
};

/* The flags of a layout body, by their names in RFC 8435. Lookups obey NO_READ_IO and WRITE_ONE_MIRROR; the other two
 * are for the caller. */
enum {
    BASILOTHYN_FF_FLAGS_NO_LAYOUTCOMMIT = 1,  /* no LAYOUTCOMMIT is needed */
    BASILOTHYN_FF_FLAGS_NO_IO_THRU_MDS = 2,   /* no I/O through the metadata server */
    BASILOTHYN_FF_FLAGS_NO_READ_IO = 4,       /* no reads under an RW layout */
    BASILOTHYN_FF_FLAGS_WRITE_ONE_MIRROR = 8  /* a write goes to one mirror */
};

/* A layout body: stripe unit (0 with one data server in each mirror), mirrors, data servers in each, flags (a set of
 * bits), statistics hint (in seconds). */
struct basilothyn_summary {
    uint64_t unit;
    uint32_t mirrors;
    uint32_t servers;
    uint32_t flags;
    uint32_t hint;
};

/* The data server of a mirror and a stripe starts at starts[mirror * BASILOTHYN_SERVERS + stripe]: its device id (16
 * bytes), efficiency (4) and stateid (16) are there. Unused entries of starts are 0. */
struct basilothyn_layout_result {
    uint32_t refusal;
    struct basilothyn_summary summary;
    uint16_t starts[BASILOTHYN_MIRRORS * BASILOTHYN_SERVERS];
};

/* Reads a layout body (ff_layout4). Limits (else 8): at most 4,090 bytes; 1 to 8 mirrors, 1 to 16 data servers in
 * each, 1 to 8 filehandles a data server, of 1 to 128 bytes; user and group of at most 64 bytes. All mirrors have
 * as many data servers as the first (else 9); with one the stripe unit is 0, with more it is above 0 (else 10).
 * Refusals: 1, 2, 6, 8, 9, 10, 11. */
struct basilothyn_layout_result basilothyn_read_layout(const uint8_t *body, size_t length);

/* offset and length as on the wire, the last byte of the range, where the body is; starts count from the body's first
 * byte. */
struct basilothyn_layout4_result {
    uint32_t refusal;
    uint32_t iomode;
    uint64_t offset;
    uint64_t length;
    uint64_t last;
    struct basilothyn_part body;
    struct basilothyn_summary summary;
    uint16_t starts[BASILOTHYN_MIRRORS * BASILOTHYN_SERVERS];
};

/* Reads a layout4, as in the reply to LAYOUTGET. Refusals: those of the layout body, and 3, 4, 5. */
struct basilothyn_layout4_result basilothyn_read_layout4(const uint8_t *bytes, size_t length);

/* The classes of a netid. */
enum {
    BASILOTHYN_OTHER = 0,
    BASILOTHYN_TCP = 1,
    BASILOTHYN_TCP6 = 2,
    BASILOTHYN_UDP = 3,
    BASILOTHYN_UDP6 = 4,
    BASILOTHYN_RDMA = 5,
    BASILOTHYN_RDMA6 = 6
};

/* An address: the class of its netid, and where its text is. */
struct basilothyn_address {
    uint32_t netid_class;
    struct basilothyn_part text;
};

/* A version entry: NFS version and minor version, the largest read and write in bytes; tight is 1 for a tightly
 * coupled server, else 0. */
struct basilothyn_version {
    uint32_t version;
    uint32_t minor;
    uint32_t rsize;
    uint32_t wsize;
    uint32_t tight;
};

/* The first address_count, version_count entries are in use, the others are 0. */
struct basilothyn_device_result {
    uint32_t refusal;
    uint32_t address_count;
    uint32_t version_count;
    struct basilothyn_address addresses[BASILOTHYN_ADDRESSES];
    struct basilothyn_version versions[BASILOTHYN_VERSIONS];
};

/* Reads a device body (ff_device_addr4), as in the reply to GETDEVICEINFO. Limits (else 8): at most 2,048 bytes; 1
 * to 8 addresses, each a netid of 1 to 8 bytes and a text of 1 to 64; 1 to 8 version entries. An entry (else 12)
 * is version 3 with minor 0, not tight, or version 4 with minor 0, 1 or 2; its sizes are above 0. Refusals: 1, 2,
 * 6, 7, 8, 12. */
struct basilothyn_device_result basilothyn_read_device(const uint8_t *body, size_t length);

/* How to speak to a data server: the version entry and its number, from 0; where in the layout body its filehandle
 * is, and, if the entry is tight, the stateid (16 bytes), else user and group. What is not used is 0. */
struct basilothyn_bind_result {
    uint32_t refusal;
    uint32_t entry;
    struct basilothyn_version version;
    struct basilothyn_part filehandle;
    size_t stateid;
    struct basilothyn_part user;
    struct basilothyn_part group;
};

/* The versions of NFS, as bits of a set: those that the caller speaks. */
enum { BASILOTHYN_NFS3 = 1, BASILOTHYN_NFS40 = 2, BASILOTHYN_NFS41 = 4, BASILOTHYN_NFS42 = 8 };

/* Binds the data server of a mirror and a stripe to its device: layout body, device body, and at id the 16 bytes
 * of the device id that the device body was fetched under. supported is a set of versions; the first version entry
 * in the set is taken, and the filehandle with the same number. Refusals in order: the layout body's, the device
 * body's, 16, 8 (supported is above 15), 13, 14, 15. */
struct basilothyn_bind_result basilothyn_bind(const uint8_t *layout, size_t layout_length, uint32_t mirror,
                                              uint32_t stripe, const uint8_t *device, size_t device_length,
                                              const uint8_t *id, uint32_t supported);

/* ---- error reports, for LAYOUTRETURN */

/* The operations that an error may be of, by their numbers in NFS. */
enum { BASILOTHYN_OP_COMMIT = 5, BASILOTHYN_OP_READ = 25, BASILOTHYN_OP_WRITE = 38 };

/* What comes before the errors of a report, and how many errors follow. */
struct basilothyn_report_head {
    uint64_t offset;
    uint64_t length;
    uint8_t stateid[BASILOTHYN_STATEID_LENGTH];
    uint32_t errors;
};

/* The first error of report k is in the body at errors_at[k]; heads[k].errors of them follow each other, 24 bytes
 * each: device id (16), status (4), operation (4). */
struct basilothyn_reports_result {
    uint32_t refusal;
    uint32_t count;
    struct basilothyn_report_head heads[BASILOTHYN_REPORTS];
    size_t errors_at[BASILOTHYN_REPORTS];
};

/* Reads the reports in the body of an ff_layoutreturn4, which has 0 to 8 reports and 0 to 8 records of statistics
 * (else 8). The whole body is judged; basilothyn_read_statistics gives the statistics. Refusals: 1, 2, 5, 6, 7, 8, 27,
 * 28. */
struct basilothyn_reports_result basilothyn_read_reports(const uint8_t *body, size_t length);

/* One error: the offset of its device id (16 bytes), its status and its operation. */
struct basilothyn_error_result {
    uint32_t refusal;
    size_t device;
    uint32_t status;
    uint32_t operation;
};

/* Reads the error at an offset in a body, whatever is before and after it; any offset may be asked for. In a body
 * that basilothyn_read_reports accepted, error k of report i is at errors_at[i] + 24 * k. Refusals in order: 1, 27
 * (the status is 0, or the operation is not COMMIT, READ or WRITE). */
struct basilothyn_error_result basilothyn_read_error(const uint8_t *body, size_t length, size_t at);

struct basilothyn_report_heads {
    struct basilothyn_report_head heads[BASILOTHYN_REPORTS];
};

/* status is an NFS status other than 0; operation is COMMIT, READ or WRITE. */
struct basilothyn_error {
    uint8_t device[BASILOTHYN_DEVICE_ID_LENGTH];
    uint32_t status;
    uint32_t operation;
};

/* The body's length, 0 after a refusal. */
struct basilothyn_write_result {
    uint32_t refusal;
    uint64_t length;
};

/* Writes the body of an ff_layoutreturn4 without statistics: the first count heads, and one list of errors,
 * error_count long: first those of heads[0], heads[0].errors of them, then those of heads[1], and so on. A report has
 * 1 to 16 errors; an output of BASILOTHYN_LONGEST_REPORT bytes is always enough. Bytes of the output after the body
 * stay as they are. Refusals in order: 8 (more than 8 reports, a list whose length is not the sum of the heads'
 * errors), then report by report 5, 8, 27, then 26. */
struct basilothyn_write_result basilothyn_write_report(uint32_t count, struct basilothyn_report_heads heads,
                                                       const struct basilothyn_error *errors, size_t error_count,
                                                       uint8_t *out, size_t out_length);

/* ---- statistics, for LAYOUTRETURN
 *
 * The structures of RFC 8435, 9.2. Counters are cumulative: they are not set back to 0 when they are sent. */

/* nfstime4, here a duration. Seconds are signed on the wire: 2^63 and more are negative, and refused with 28, as are
 * 1,000,000,000 nanoseconds and more. */
struct basilothyn_time {
    uint64_t seconds;
    uint32_t nanoseconds;
};

/* io_info4: how many I/Os of contiguous bytes there were in the range, and how many bytes they transferred. */
struct basilothyn_io_info {
    uint64_t count;
    uint64_t bytes;
};

/* ff_io_latency4: what was asked for and what was done, in operations and bytes; the bytes that were asked for and,
 * because of an error, not delivered; how long calls were under way, and the sum of the round trips of those that ended. */
struct basilothyn_latency {
    uint64_t ops_requested;
    uint64_t bytes_requested;
    uint64_t ops_completed;
    uint64_t bytes_completed;
    uint64_t bytes_not_delivered;
    struct basilothyn_time busy;
    struct basilothyn_time completion;
};

/* Of the bytes of a netid, an address and a filehandle the first length count; the others are spare, 0 after reading
 * and ignored in writing. The length is 1 to 8, 1 to 64 and 1 to 128 (else 8). */
struct basilothyn_netid {
    uint32_t length;
    uint8_t bytes[BASILOTHYN_LONGEST_NETID];
};

struct basilothyn_address_text {
    uint32_t length;
    uint8_t bytes[BASILOTHYN_LONGEST_ADDRESS];
};

struct basilothyn_filehandle {
    uint32_t length;
    uint8_t bytes[BASILOTHYN_LONGEST_FILEHANDLE];
};

/* netaddr4. Neither the netid's class nor the text's form is looked at. */
struct basilothyn_netaddr {
    struct basilothyn_netid netid;
    struct basilothyn_address_text text;
};

/* ff_layoutupdate4: the address and the filehandle that were used; READ under read, WRITE and COMMIT under write; the
 * time over which all of it was counted; local is 1 where the client's cache served the I/O, else 0. */
struct basilothyn_layout_update {
    struct basilothyn_netaddr address;
    struct basilothyn_filehandle filehandle;
    struct basilothyn_latency read;
    struct basilothyn_latency write;
    struct basilothyn_time duration;
    uint32_t local;
};

/* ff_iostats4: the range (else 5) and the layout's stateid, how much was read and written there, and the device. */
struct basilothyn_statistic {
    uint64_t offset;
    uint64_t length;
    uint8_t stateid[BASILOTHYN_STATEID_LENGTH];
    struct basilothyn_io_info read;
    struct basilothyn_io_info write;
    uint8_t device[BASILOTHYN_DEVICE_ID_LENGTH];
    struct basilothyn_layout_update update;
};

/* The first count records are those of the body, the others are 0. */
struct basilothyn_statistics_result {
    uint32_t refusal;
    uint32_t count;
    struct basilothyn_statistic statistics[BASILOTHYN_STATISTICS];
};

/* Reads the statistics in the body of an ff_layoutreturn4. The whole body is judged, the reports too, and refused
 * exactly as basilothyn_read_reports refuses it: 1, 2, 5, 6, 7, 8, 27, 28, whichever is met first in the order of the
 * bytes. In a record: 5 after the length; then netid, address and filehandle, 8 after the length and 6 after the
 * padding; 28 after each of the five times; 7 at its end. */
struct basilothyn_statistics_result basilothyn_read_statistics(const uint8_t *body, size_t length);

/* What is to be written: the first count heads and the first statistic_count records. The others are not looked at. */
struct basilothyn_outgoing {
    uint32_t count;
    struct basilothyn_report_head heads[BASILOTHYN_REPORTS];
    uint32_t statistic_count;
    struct basilothyn_statistic statistics[BASILOTHYN_STATISTICS];
};

/* Writes the body of an ff_layoutreturn4 with statistics: reports and one list of errors as in basilothyn_write_report,
 * then the records. An output of BASILOTHYN_LONGEST_RETURN bytes is always enough. Bytes of the output after the body
 * stay as they are. Refusals in order: 8 (more than 8 reports, a list whose length is not the sum of the heads' errors,
 * more than 8 records), then report by report 5, 8, 27, then record by record 5, 8 (the length of netid, address,
 * filehandle), 28 (read.busy, read.completion, write.busy, write.completion, duration), 7 (local is above 1), then 26.
 */
struct basilothyn_write_result basilothyn_write_return(struct basilothyn_outgoing outgoing,
                                                       const struct basilothyn_error *errors, size_t error_count,
                                                       uint8_t *out, size_t out_length);

#ifdef __cplusplus
}
#endif

#endif
