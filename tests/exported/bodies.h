/* Bodies as they come on the wire, put together from what the scope paper says of each: numbers big-endian, opaque data
 * with its length in front and zeros behind, up to a multiple of 4. */
#ifndef BODIES_H
#define BODIES_H

#include <stdint.h>
#include <string.h>

struct bytes {
    uint8_t at[8192];
    size_t length;
};

static inline void put(struct bytes *b, uint64_t number, unsigned width)
{
    while (width-- > 0)
        b->at[b->length++] = (uint8_t)(number >> 8 * width);
}

static inline void put_copies(struct bytes *b, uint8_t byte, size_t count)
{
    memset(b->at + b->length, byte, count);
    b->length += count;
}

/* Opaque data that is one byte, so many times. */
static inline void put_opaque_copies(struct bytes *b, uint8_t byte, uint32_t count)
{
    put(b, count, 4);
    put_copies(b, byte, count);
    put_copies(b, 0, (4 - count % 4) % 4);
}

static inline void put_opaque(struct bytes *b, const char *text)
{
    size_t length = strlen(text);

    put(b, length, 4);
    memcpy(b->at + b->length, text, length);
    b->length += length;
    put_copies(b, 0, (4 - length % 4) % 4);
}

/* Every data server has the same device id and stateid (16 times one byte), user and group, and as many filehandles of
 * one length: "a", "b", and so on, or longer. That of mirror m and stripe k has the efficiency efficiency[m][k]; there
 * is one for each that a body may have, and for one mirror and one data server too many. */
struct layout_plan {
    uint64_t unit;
    uint32_t mirrors, servers, handles, handle_length, flags, hint;
    uint32_t efficiency[9][17];
    uint8_t device, stateid;
    const char *user, *group;
};

/* One mirror of one data server: the smallest body. */
static const struct layout_plan smallest = {
    .mirrors = 1, .servers = 1, .handles = 1, .handle_length = 1, .device = 1, .user = "", .group = ""};

static inline void put_server(struct bytes *b, const struct layout_plan *p, uint32_t efficiency)
{
    put_copies(b, p->device, 16);
    put(b, efficiency, 4);
    put_copies(b, p->stateid, 16);
    put(b, p->handles, 4);
    for (uint32_t i = 0; i < p->handles; i++)
        put_opaque_copies(b, (uint8_t)('a' + i), p->handle_length);
    put_opaque(b, p->user);
    put_opaque(b, p->group);
}

static inline struct bytes layout_body(struct layout_plan p)
{
    struct bytes b = {.length = 0};

    put(&b, p.unit, 8);
    put(&b, p.mirrors, 4);
    for (uint32_t mirror = 0; mirror < p.mirrors; mirror++) {
        put(&b, p.servers, 4);
        for (uint32_t stripe = 0; stripe < p.servers; stripe++)
            put_server(&b, &p, p.efficiency[mirror][stripe]);
    }
    put(&b, p.flags, 4);
    put(&b, p.hint, 4);
    return b;
}

static inline struct bytes layout4(uint64_t offset, uint64_t length, uint32_t iomode, struct layout_plan p)
{
    struct bytes body = layout_body(p), b = {.length = 0};

    put(&b, offset, 8);
    put(&b, length, 8);
    put(&b, iomode, 4);
    put(&b, 4, 4);
    put(&b, body.length, 4);
    memcpy(b.at + b.length, body.at, body.length);
    b.length += body.length;
    return b;
}

struct version_plan {
    uint32_t version, minor, rsize, wsize, tight;
};

/* Address after address of one netid and text, then the version entries. */
static inline struct bytes device_body(uint32_t addresses, const char *netid, const char *text, uint32_t versions,
                                const struct version_plan *v)
{
    struct bytes b = {.length = 0};

    put(&b, addresses, 4);
    for (uint32_t i = 0; i < addresses; i++) {
        put_opaque(&b, netid);
        put_opaque(&b, text);
    }
    put(&b, versions, 4);
    for (uint32_t i = 0; i < versions; i++) {
        put(&b, v[i].version, 4);
        put(&b, v[i].minor, 4);
        put(&b, v[i].rsize, 4);
        put(&b, v[i].wsize, 4);
        put(&b, v[i].tight, 4);
    }
    return b;
}

/* Reports of the bytes 1 to 2 with a stateid of threes. Error number n of the body is of the device whose id is 16
 * times n, with the status n + 1, in a WRITE. */
static inline void put_reports(struct bytes *b, uint32_t reports, uint32_t errors)
{
    put(b, reports, 4);
    for (uint32_t i = 0; i < reports; i++) {
        put(b, 1, 8);
        put(b, 2, 8);
        put_copies(b, 3, 16);
        put(b, errors, 4);
        for (uint32_t k = 0; k < errors; k++) {
            put_copies(b, (uint8_t)(i * errors + k), 16);
            put(b, i * errors + k + 1, 4);
            put(b, 38, 4);
        }
    }
}

/* A body without statistics. */
static inline struct bytes report_body(uint32_t reports, uint32_t errors)
{
    struct bytes b = {.length = 0};

    put_reports(&b, reports, errors);
    put(&b, 0, 4);
    return b;
}

/* The lengths of netid, address and filehandle: the shortest make a record of 248 bytes, the longest one of 436. */
struct lengths {
    uint32_t netid, address, filehandle;
};

static const struct lengths shortest = {1, 1, 1}, longest = {8, 64, 128};

static inline void put_latency(struct bytes *b, uint64_t first)
{
    for (uint64_t i = 0; i < 5; i++)
        put(b, first + i, 8);
    for (uint64_t i = 5; i < 9; i += 2) {
        put(b, first + i, 8);
        put(b, first + i + 1, 4);
    }
}

/* A record of statistics. Its numbers count up from 100 times its own; its runs of bytes are 16 times its own and so
 * on, and of odd records local is 1. */
static inline void put_statistic(struct bytes *b, uint8_t number, struct lengths l)
{
    uint64_t first = UINT64_C(100) * number;

    put(b, first + 1, 8);
    put(b, first + 2, 8);
    put_copies(b, (uint8_t)(16 * number), 16);
    for (uint64_t i = 3; i < 7; i++)
        put(b, first + i, 8);
    put_copies(b, (uint8_t)(16 * number + 1), 16);
    put_opaque_copies(b, (uint8_t)(16 * number + 2), l.netid);
    put_opaque_copies(b, (uint8_t)(16 * number + 3), l.address);
    put_opaque_copies(b, (uint8_t)(16 * number + 4), l.filehandle);
    put_latency(b, first + 7);
    put_latency(b, first + 16);
    put(b, first + 25, 8);
    put(b, first + 26, 4);
    put(b, number % 2, 4);
}

/* Reports as above, and records of the numbers 0, 1 and so on. */
static inline struct bytes return_body(uint32_t reports, uint32_t errors, uint32_t statistics, struct lengths l)
{
    struct bytes b = {.length = 0};

    put_reports(&b, reports, errors);
    put(&b, statistics, 4);
    for (uint32_t i = 0; i < statistics; i++)
        put_statistic(&b, (uint8_t)i, l);
    return b;
}

#endif
