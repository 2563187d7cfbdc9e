/* What the tests of the header share: how a fact is checked and a name noted as tested, the header's functions over
 * what bodies.h makes, and a file with its table and store. */
#ifndef CALLS_H
#define CALLS_H

#include "basilothyn.h"
#include "bodies.h"

#include <stdio.h>

static unsigned checks, faults;

static inline void check(int good, const char *what, const char *file, int line)
{
    checks++;
    if (!good) {
        faults++;
        printf("%s:%d: not so: %s\n", file, line, what);
    }
}

static inline void tested(const char *name)
{
    printf("tested %s\n", name);
}

static inline void constant(const char *name, uint64_t header, uint64_t paper, uint64_t core, const char *file,
                            int line)
{
    tested(name);
    check(header == paper, name, file, line);
    check(core == paper, name, file, line);
}

/* The header's constant, the number in the paper, and what the core answers. */
#define CONSTANT(name, paper, core) constant(#name, name, paper, core, __FILE__, __LINE__)
#define CHECK(fact) check(fact, #fact, __FILE__, __LINE__)
#define CALL(function) (tested(#function), function)
#define ENTRIES(array) (sizeof(array) / sizeof((array)[0]))

#define WHOLE UINT64_MAX

/* ---- calls over what bodies.h makes */

static inline struct basilothyn_layout_result read_layout(struct bytes b)
{
    return CALL(basilothyn_read_layout)(b.at, b.length);
}

static inline struct basilothyn_layout4_result read_layout4(struct bytes b)
{
    return CALL(basilothyn_read_layout4)(b.at, b.length);
}

static inline struct basilothyn_device_result read_device(struct bytes b)
{
    return CALL(basilothyn_read_device)(b.at, b.length);
}

static inline struct basilothyn_reports_result read_reports(struct bytes b)
{
    return CALL(basilothyn_read_reports)(b.at, b.length);
}

static inline struct basilothyn_error_result read_error(struct bytes b, size_t at)
{
    return CALL(basilothyn_read_error)(b.at, b.length, at);
}

static inline struct basilothyn_statistics_result read_statistics(struct bytes b)
{
    return CALL(basilothyn_read_statistics)(b.at, b.length);
}

/* Binds the data server of a mirror and a stripe to a device that was fetched under an id of 16 times one byte. */
static inline struct basilothyn_bind_result bind_server(struct layout_plan p, uint32_t mirror, uint32_t stripe,
                                                 struct bytes device, uint8_t id, uint32_t supported)
{
    struct bytes layout = layout_body(p), fetched_under = {.length = 0};

    put_copies(&fetched_under, id, 16);
    return CALL(basilothyn_bind)(layout.at, layout.length, mirror, stripe, device.at, device.length, fetched_under.at,
                                 supported);
}

/* A body with one number of it changed, or with another length. */
static inline struct bytes with(struct bytes b, size_t at, uint64_t number, unsigned width)
{
    struct bytes changed = b;

    changed.length = at;
    put(&changed, number, width);
    changed.length = b.length;
    return changed;
}

static inline struct bytes of_length(struct bytes b, size_t length)
{
    b.length = length;
    return b;
}

/* ---- what bodies.h puts into a body, as records */

static inline struct basilothyn_error error_of(uint8_t device, uint32_t status, uint32_t operation)
{
    struct basilothyn_error e = {.status = status, .operation = operation};

    memset(e.device, device, sizeof e.device);
    return e;
}

static inline struct basilothyn_latency latency_of(uint64_t first)
{
    return (struct basilothyn_latency){first, first + 1, first + 2, first + 3, first + 4,
                                       {first + 5, (uint32_t)first + 6}, {first + 7, (uint32_t)first + 8}};
}

/* Spare bytes are those that are asked for. A length may be above the longest. */
static inline struct basilothyn_statistic statistic_of(uint8_t number, struct lengths l, uint8_t spare)
{
    uint64_t first = UINT64_C(100) * number;
    struct basilothyn_statistic s = {.offset = first + 1, .length = first + 2, .read = {first + 3, first + 4},
                                     .write = {first + 5, first + 6}};
    struct basilothyn_layout_update *u = &s.update;

    memset(s.stateid, 16 * number, sizeof s.stateid);
    memset(s.device, 16 * number + 1, sizeof s.device);
    u->address.netid.length = l.netid;
    u->address.text.length = l.address;
    u->filehandle.length = l.filehandle;
    for (uint32_t i = 0; i < sizeof u->address.netid.bytes; i++)
        u->address.netid.bytes[i] = i < l.netid ? (uint8_t)(16 * number + 2) : spare;
    for (uint32_t i = 0; i < sizeof u->address.text.bytes; i++)
        u->address.text.bytes[i] = i < l.address ? (uint8_t)(16 * number + 3) : spare;
    for (uint32_t i = 0; i < sizeof u->filehandle.bytes; i++)
        u->filehandle.bytes[i] = i < l.filehandle ? (uint8_t)(16 * number + 4) : spare;
    u->read = latency_of(first + 7);
    u->write = latency_of(first + 16);
    u->duration = (struct basilothyn_time){first + 25, (uint32_t)first + 26};
    u->local = number % 2;
    return s;
}

/* What makes return_body, and its list of errors, which has room for 128. Entries from a count on are full of 165. */
static inline struct basilothyn_outgoing outgoing_of(uint32_t reports, uint32_t errors, uint32_t statistics,
                                                     struct lengths l, struct basilothyn_error *list)
{
    struct basilothyn_outgoing o;
    uint32_t count = 0;

    memset(&o, 165, sizeof o);
    o.count = reports;
    o.statistic_count = statistics;
    for (uint32_t i = 0; i < reports && i < BASILOTHYN_REPORTS; i++) {
        o.heads[i] = (struct basilothyn_report_head){.offset = 1, .length = 2, .errors = errors};
        memset(o.heads[i].stateid, 3, sizeof o.heads[i].stateid);
        for (uint32_t k = 0; k < errors; k++, count++)
            list[count] = error_of((uint8_t)count, count + 1, 38);
    }
    for (uint32_t i = 0; i < statistics && i < BASILOTHYN_STATISTICS; i++)
        o.statistics[i] = statistic_of((uint8_t)i, l, 165);
    return o;
}

/* ---- a file: its table and its store */

struct file {
    struct basilothyn_table table;
    uint8_t store[BASILOTHYN_STORE_LENGTH];
};

static inline struct file new_file(void)
{
    struct file f = {.table = CALL(basilothyn_empty_table)()};

    return f;
}

/* Keeps what an event gave back: after a refusal all must be as it was. */
static inline uint32_t keep(struct file *f, const struct file *before, struct basilothyn_event_result r)
{
    f->table = r.table;
    if (r.refusal != 0)
        CHECK(memcmp(f, before, sizeof *f) == 0);
    return r.refusal;
}

static inline uint32_t grant(struct file *f, uint64_t offset, uint64_t length, uint32_t iomode, struct layout_plan p)
{
    struct file before = *f;
    struct bytes b = layout4(offset, length, iomode, p);

    return keep(f, &before, CALL(basilothyn_grant)(f->table, f->store, sizeof f->store, b.at, b.length));
}

static inline uint32_t give_back(struct file *f, uint64_t offset, uint64_t length, uint32_t iomode)
{
    struct file before = *f;

    return keep(f, &before, CALL(basilothyn_return)(f->table, f->store, sizeof f->store, offset, length, iomode));
}

static inline uint32_t recall(struct file *f, uint64_t offset, uint64_t length, uint32_t iomode)
{
    struct file before = *f;

    return keep(f, &before, CALL(basilothyn_recall)(f->table, f->store, sizeof f->store, offset, length, iomode));
}

static inline uint32_t revoke(struct file *f)
{
    struct file before = *f;

    return keep(f, &before, CALL(basilothyn_revoke)(f->table, f->store, sizeof f->store));
}

static inline struct basilothyn_locate_result locate_read(const struct file *f, uint64_t offset, uint64_t length)
{
    return CALL(basilothyn_locate_read)(f->table, f->store, sizeof f->store, offset, length);
}

static inline struct basilothyn_locate_result locate_write(const struct file *f, uint64_t offset, uint64_t length)
{
    return CALL(basilothyn_locate_write)(f->table, f->store, sizeof f->store, offset, length);
}

static inline int is_segment(struct basilothyn_segment s, uint64_t first, uint64_t last, uint32_t kind, uint32_t slot)
{
    return s.first == first && s.last == last && s.kind == kind && s.slot == slot;
}

/* The smallest body with other bytes in it, so that it takes a slot of its own. */
static inline struct layout_plan body_number(uint8_t number)
{
    struct layout_plan p = smallest;

    p.device = number;
    return p;
}

/* What a test ends with. */
static inline int ended(void)
{
    if (faults > 0)
        printf("%u of %u checks failed\n", faults, checks);
    else
        printf("%u checks\n", checks);
    return faults > 0;
}

#endif
