/*
 * Holds what include/basilothyn.h says of statistics to the core and to change request C-13: records read and written,
 * every refusal of both functions in its order, and the limits on both sides. Prints what header.c prints.
 */
#include "calls.h"

#define TWO_TO_63 (UINT64_C(1) << 63)
#define A_SECOND UINT32_C(1000000000)

/* In a body of no report and one record of the shortest netid, address and filehandle the record starts at 8. Where
 * the lengths of the three are then, the five times, and local: */
enum { OFFSET = 8, LENGTH = 16, NETID = 88, ADDRESS = 96, FILEHANDLE = 104, LOCAL = 252, ONE_RECORD = 256 };

static const size_t times_at[5] = {152, 164, 216, 228, 240};

/* ---- records that are the same, spare bytes and all */

static int same_time(struct basilothyn_time a, struct basilothyn_time b)
{
    return a.seconds == b.seconds && a.nanoseconds == b.nanoseconds;
}

static int same_latency(struct basilothyn_latency a, struct basilothyn_latency b)
{
    return a.ops_requested == b.ops_requested && a.bytes_requested == b.bytes_requested &&
           a.ops_completed == b.ops_completed && a.bytes_completed == b.bytes_completed &&
           a.bytes_not_delivered == b.bytes_not_delivered && same_time(a.busy, b.busy) &&
           same_time(a.completion, b.completion);
}

static int same_update(const struct basilothyn_layout_update *a, const struct basilothyn_layout_update *b)
{
    return memcmp(&a->address, &b->address, sizeof a->address) == 0 &&
           memcmp(&a->filehandle, &b->filehandle, sizeof a->filehandle) == 0 && same_latency(a->read, b->read) &&
           same_latency(a->write, b->write) && same_time(a->duration, b->duration) && a->local == b->local;
}

static int same_statistic(const struct basilothyn_statistic *a, const struct basilothyn_statistic *b)
{
    return a->offset == b->offset && a->length == b->length && memcmp(a->stateid, b->stateid, 16) == 0 &&
           a->read.count == b->read.count && a->read.bytes == b->read.bytes && a->write.count == b->write.count &&
           a->write.bytes == b->write.bytes && memcmp(a->device, b->device, 16) == 0 &&
           same_update(&a->update, &b->update);
}

/* ---- reading */

/* The refusal, which both readers give, and nothing beside it. */
static uint32_t refused(struct bytes b)
{
    static const struct basilothyn_statistic blank;
    struct basilothyn_statistics_result r = read_statistics(b);
    int nothing = r.count == 0;

    for (uint32_t i = 0; i < ENTRIES(r.statistics); i++)
        nothing &= same_statistic(&r.statistics[i], &blank);
    CHECK(read_reports(b).refusal == r.refusal && (r.refusal == 0 || nothing));
    return r.refusal;
}

/* Each record as it is, with zeros past each length, and blank ones behind them. */
static void test_read(uint32_t reports, uint32_t errors, uint32_t statistics, struct lengths l)
{
    static const struct basilothyn_statistic blank;
    struct bytes b = return_body(reports, errors, statistics, l);
    struct basilothyn_statistics_result r = read_statistics(b);
    struct basilothyn_reports_result heads = read_reports(b);

    CHECK(r.refusal == 0 && r.count == statistics && heads.refusal == 0 && heads.count == reports);
    for (uint32_t i = 0; i < ENTRIES(r.statistics); i++) {
        struct basilothyn_statistic s = statistic_of((uint8_t)i, l, 0);

        CHECK(same_statistic(&r.statistics[i], i < statistics ? &s : &blank));
    }
}

static void test_cuts(void)
{
    struct bytes b = return_body(0, 0, 1, shortest);

    CHECK(b.length == ONE_RECORD && refused(b) == 0);
    for (size_t length = 0; length < b.length; length++)
        CONSTANT(BASILOTHYN_BYTES_RUN_OUT, 1, refused(of_length(b, length)));
    CONSTANT(BASILOTHYN_BYTES_LEFT_OVER, 2, refused(of_length(b, b.length + 1)));
}

static void test_ranges(void)
{
    struct bytes b = return_body(0, 0, 1, shortest);

    /* The record is of the bytes 1 to 2. */
    CONSTANT(BASILOTHYN_RANGE_INVALID, 5, refused(with(b, LENGTH, 0, 8)));
    CONSTANT(BASILOTHYN_RANGE_INVALID, 5, refused(with(with(b, OFFSET, 2, 8), LENGTH, WHOLE - 1, 8)));
    CONSTANT(BASILOTHYN_RANGE_INVALID, 5, refused(with(b, OFFSET, WHOLE - 1, 8)));
    CHECK(refused(with(b, LENGTH, WHOLE - 1, 8)) == 0 && refused(with(b, OFFSET, WHOLE - 2, 8)) == 0);
    CHECK(refused(with(b, LENGTH, WHOLE, 8)) == 0);
    CHECK(refused(with(with(b, LENGTH, WHOLE, 8), OFFSET, WHOLE, 8)) == 0);
    CHECK(refused(of_length(with(b, LENGTH, 0, 8), LENGTH + 8)) == 5);
    CHECK(refused(of_length(with(b, LENGTH, 0, 8), LENGTH + 7)) == 1);
}

/* The longest of the three lengths, each alone; with one more the body is refused, and also when cut behind it. */
static uint32_t longest_of(size_t at)
{
    struct lengths l = shortest;
    uint32_t *length = at == NETID ? &l.netid : at == ADDRESS ? &l.address : &l.filehandle;

    while (refused(return_body(0, 0, 1, l)) == 0)
        (*length)++;
    CONSTANT(BASILOTHYN_OUTSIDE_LIMIT, 8, refused(return_body(0, 0, 1, l)));
    CHECK(refused(of_length(with(return_body(0, 0, 1, shortest), at, *length, 4), at + 4)) == 8);
    CHECK(refused(of_length(with(return_body(0, 0, 1, shortest), at, *length, 4), at + 3)) == 1);
    CHECK(refused(with(return_body(0, 0, 1, shortest), at, 0, 4)) == 8);
    CHECK(refused(with(return_body(0, 0, 1, shortest), at, UINT32_MAX, 4)) == 8);
    return *length - 1;
}

static uint32_t most_records(void)
{
    uint32_t count = 0;

    while (refused(return_body(0, 0, count, shortest)) == 0)
        count++;
    CONSTANT(BASILOTHYN_OUTSIDE_LIMIT, 8, refused(return_body(0, 0, count, shortest)));
    CHECK(refused(of_length(with(return_body(0, 0, 1, shortest), 4, count, 4), 8)) == 8);
    return count - 1;
}

static void test_limits(void)
{
    struct bytes b = return_body(8, 16, 8, longest);
    struct basilothyn_statistics_result r;
    struct basilothyn_outgoing o;

    CONSTANT(BASILOTHYN_LONGEST_NETID, 8, longest_of(NETID));
    CONSTANT(BASILOTHYN_LONGEST_ADDRESS, 64, longest_of(ADDRESS));
    CONSTANT(BASILOTHYN_LONGEST_FILEHANDLE, 128, longest_of(FILEHANDLE));
    CONSTANT(BASILOTHYN_STATISTICS, 8, most_records());
    CONSTANT(BASILOTHYN_LONGEST_RETURN, 4 + 8 * 420 + 4 + 8 * 436, b.length);
    CHECK(refused(b) == 0 && refused(of_length(b, b.length + 1)) == 2);
    CHECK(ENTRIES(r.statistics) == 8 && ENTRIES(o.statistics) == 8 && ENTRIES(o.heads) == 8);
    CHECK(sizeof(struct basilothyn_statistic) == 464);
}

/* A netid, an address and a filehandle of one byte have three bytes of padding. */
static void test_padding_and_local(void)
{
    static const size_t lengths_at[3] = {NETID, ADDRESS, FILEHANDLE};
    struct bytes b = return_body(0, 0, 1, shortest);

    for (uint32_t i = 0; i < ENTRIES(lengths_at); i++) {
        CHECK(refused(with(b, lengths_at[i] + 4, 255, 1)) == 0);
        for (size_t at = lengths_at[i] + 5; at < lengths_at[i] + 8; at++)
            CONSTANT(BASILOTHYN_PADDING_NOT_ZERO, 6, refused(with(b, at, 1, 1)));
    }
    CHECK(refused(with(b, LOCAL, 0, 4)) == 0 && read_statistics(with(b, LOCAL, 0, 4)).statistics[0].update.local == 0);
    CHECK(refused(with(b, LOCAL, 1, 4)) == 0 && read_statistics(with(b, LOCAL, 1, 4)).statistics[0].update.local == 1);
    CONSTANT(BASILOTHYN_BOOLEAN_INVALID, 7, refused(with(b, LOCAL, 2, 4)));
    CONSTANT(BASILOTHYN_BOOLEAN_INVALID, 7, refused(with(b, LOCAL, TWO_TO_63 >> 32, 4)));
}

/* Each of the five times, and that it is judged when both its parts are there. */
static void test_times(void)
{
    struct bytes b = return_body(0, 0, 1, shortest);

    for (uint32_t i = 0; i < ENTRIES(times_at); i++) {
        size_t at = times_at[i];
        struct bytes negative = with(b, at, TWO_TO_63, 8), too_many = with(b, at + 8, A_SECOND, 4);

        CHECK(refused(with(with(b, at, TWO_TO_63 - 1, 8), at + 8, A_SECOND - 1, 4)) == 0);
        CHECK(refused(with(with(b, at, 0, 8), at + 8, 0, 4)) == 0);
        CONSTANT(BASILOTHYN_TIME_INVALID, 28, refused(negative));
        CONSTANT(BASILOTHYN_TIME_INVALID, 28, refused(too_many));
        CONSTANT(BASILOTHYN_TIME_INVALID, 28, refused(with(b, at, WHOLE, 8)));
        CONSTANT(BASILOTHYN_TIME_INVALID, 28, refused(with(b, at + 8, UINT32_MAX, 4)));
        CHECK(refused(of_length(negative, at + 12)) == 28 && refused(of_length(too_many, at + 12)) == 28);
        CHECK(refused(of_length(negative, at + 11)) == 1 && refused(of_length(too_many, at + 11)) == 1);
    }
}

/* The first fault in the order of the bytes: an error's before a record's, a record's before that of the next. */
static void test_reading_order(void)
{
    /* The operation of the one error is at 60, the records start at 68 and 316; local ends each. */
    struct bytes b = return_body(1, 1, 2, shortest), worse = with(b, 316 + 8, 0, 8);

    CHECK(b.length == 68 + 2 * 248 && refused(b) == 0);
    CONSTANT(BASILOTHYN_RANGE_INVALID, 5, refused(of_length(worse, b.length + 1)));
    worse = with(worse, 68 + 244, 2, 4);
    CONSTANT(BASILOTHYN_BOOLEAN_INVALID, 7, refused(worse));
    worse = with(worse, 68 + 240, A_SECOND, 4);
    CONSTANT(BASILOTHYN_TIME_INVALID, 28, refused(worse));
    worse = with(worse, 68 + 84 + 1, 1, 1);
    CONSTANT(BASILOTHYN_PADDING_NOT_ZERO, 6, refused(worse));
    worse = with(worse, 68 + 80, 9, 4);
    CONSTANT(BASILOTHYN_OUTSIDE_LIMIT, 8, refused(worse));
    worse = with(worse, 68 + 8, 0, 8);
    CONSTANT(BASILOTHYN_RANGE_INVALID, 5, refused(worse));
    worse = with(worse, 64, 9, 4);
    CONSTANT(BASILOTHYN_OUTSIDE_LIMIT, 8, refused(worse));
    worse = with(worse, 60, 39, 4);
    CONSTANT(BASILOTHYN_ERROR_INVALID, 27, refused(worse));
}

/* ---- writing */

static uint8_t out[8192];

/* Writes to an output of so many bytes. A refused call leaves it as it was, and every call the bytes after the body. */
static struct basilothyn_write_result write_return(struct basilothyn_outgoing o, const struct basilothyn_error *errors,
                                                   size_t error_count, size_t length)
{
    struct basilothyn_write_result w;
    size_t changed = sizeof out;

    memset(out, 165, sizeof out);
    w = CALL(basilothyn_write_return)(o, errors, error_count, out, length);
    while (changed > 0 && out[changed - 1] == 165)
        changed--;
    CHECK(changed <= w.length && w.length <= length && (w.refusal == 0 || w.length == 0));
    return w;
}

/* What is written is the body that the paper describes, whatever the spare bytes and the entries past a count. */
static void test_written(uint32_t reports, uint32_t errors, uint32_t statistics, struct lengths l, size_t length)
{
    struct bytes body = return_body(reports, errors, statistics, l);
    struct basilothyn_error list[128];
    struct basilothyn_outgoing o = outgoing_of(reports, errors, statistics, l, list);
    struct basilothyn_write_result w = write_return(o, list, reports * errors, sizeof out);

    CHECK(body.length == length && w.refusal == 0 && w.length == length && memcmp(out, body.at, length) == 0);
    w = write_return(o, list, reports * errors, length);
    CHECK(w.refusal == 0 && w.length == length && memcmp(out, body.at, length) == 0);
    CONSTANT(BASILOTHYN_OUTPUT_TOO_SHORT, 26, write_return(o, list, reports * errors, length - 1).refusal);
    CONSTANT(BASILOTHYN_OUTPUT_TOO_SHORT, 26, write_return(o, list, reports * errors, 0).refusal);
}

/* One report with one error and two records, and what is asked of it. */
static struct basilothyn_error one_error[128];
static struct basilothyn_outgoing one_and_two;

static uint32_t writing(size_t error_count, size_t length)
{
    return write_return(one_and_two, one_error, error_count, length).refusal;
}

/* Counts and reports wrong in every way, and put right one after the other. */
static void test_order_of_reports(void)
{
    one_and_two = outgoing_of(1, 1, 2, shortest, one_error);
    CHECK(writing(1, 68 + 2 * 248) == 0);
    one_and_two.statistic_count = 9;
    one_and_two.heads[0].length = 0;
    one_and_two.heads[0].errors = 17;
    one_error[0].operation = 39;
    one_and_two.statistics[0].length = 0;
    one_and_two.count = 9;
    CONSTANT(BASILOTHYN_OUTSIDE_LIMIT, 8, writing(17, 0));
    one_and_two.count = 1;
    CONSTANT(BASILOTHYN_OUTSIDE_LIMIT, 8, writing(16, 0));
    CONSTANT(BASILOTHYN_OUTSIDE_LIMIT, 8, writing(17, 0));
    one_and_two.statistic_count = UINT32_MAX;
    CONSTANT(BASILOTHYN_OUTSIDE_LIMIT, 8, writing(17, 0));
    one_and_two.statistic_count = 2;
    CONSTANT(BASILOTHYN_OUTSIDE_LIMIT, 8, writing(16, 0));
    CONSTANT(BASILOTHYN_RANGE_INVALID, 5, writing(17, 0));
    one_and_two.heads[0].length = 2;
    CONSTANT(BASILOTHYN_OUTSIDE_LIMIT, 8, writing(17, 0));
    one_and_two.heads[0].errors = 1;
    CONSTANT(BASILOTHYN_ERROR_INVALID, 27, writing(1, 0));
    one_error[0].operation = 5;
    CONSTANT(BASILOTHYN_RANGE_INVALID, 5, writing(1, 0));
}

/* The five times of a record, in their order. */
static struct basilothyn_time *time_of(struct basilothyn_layout_update *u, uint32_t number)
{
    struct basilothyn_time *times[5] = {&u->read.busy, &u->read.completion, &u->write.busy, &u->write.completion,
                                        &u->duration};

    return times[number];
}

/* The same of a record: the range, the three lengths, the times, local. The next record has no range. */
static void test_order_of_records(void)
{
    struct basilothyn_statistic *s = &one_and_two.statistics[0];

    one_and_two = outgoing_of(1, 1, 2, shortest, one_error);
    s->length = s->update.address.netid.length = 0;
    s->update.address.text.length = 65;
    s->update.filehandle.length = UINT32_MAX;
    for (uint32_t i = 0; i < 5; i++)
        *time_of(&s->update, i) = (struct basilothyn_time){TWO_TO_63, 0};
    s->update.local = 2;
    one_and_two.statistics[1].length = 0;
    CONSTANT(BASILOTHYN_RANGE_INVALID, 5, writing(1, 0));
    s->length = 2;
    CONSTANT(BASILOTHYN_OUTSIDE_LIMIT, 8, writing(1, 0));
    s->update.address.netid.length = 8;
    CONSTANT(BASILOTHYN_OUTSIDE_LIMIT, 8, writing(1, 0));
    s->update.address.text.length = 64;
    CONSTANT(BASILOTHYN_OUTSIDE_LIMIT, 8, writing(1, 0));
    s->update.filehandle.length = 128;
    for (uint32_t i = 0; i < 5; i++) {
        CONSTANT(BASILOTHYN_TIME_INVALID, 28, writing(1, 0));
        *time_of(&s->update, i) = (struct basilothyn_time){TWO_TO_63 - 1, A_SECOND - 1};
    }
    CONSTANT(BASILOTHYN_BOOLEAN_INVALID, 7, writing(1, 0));
    s->update.local = 1;
    CONSTANT(BASILOTHYN_RANGE_INVALID, 5, writing(1, 0));
    one_and_two.statistics[1].length = WHOLE;
    CONSTANT(BASILOTHYN_OUTPUT_TOO_SHORT, 26, writing(1, 68 + 436 + 248 - 1));
    CHECK(writing(1, 68 + 436 + 248) == 0);
}

/* Each limit of a record that is written, and what is beyond it, with all else right. */
static void test_limits_of_records(void)
{
    static const struct lengths wrong[6] = {{0, 1, 1}, {9, 1, 1}, {1, 0, 1}, {1, 65, 1}, {1, 1, 0}, {1, 1, 129}};

    for (uint32_t i = 0; i < ENTRIES(wrong); i++) {
        one_and_two = outgoing_of(1, 1, 2, shortest, one_error);
        one_and_two.statistics[1] = statistic_of(1, wrong[i], 0);
        CONSTANT(BASILOTHYN_OUTSIDE_LIMIT, 8, writing(1, sizeof out));
    }
    for (uint32_t i = 0; i < 5; i++) {
        one_and_two = outgoing_of(1, 1, 2, shortest, one_error);
        time_of(&one_and_two.statistics[1].update, i)->nanoseconds = A_SECOND;
        CONSTANT(BASILOTHYN_TIME_INVALID, 28, writing(1, sizeof out));
        *time_of(&one_and_two.statistics[1].update, i) = (struct basilothyn_time){WHOLE, 0};
        CONSTANT(BASILOTHYN_TIME_INVALID, 28, writing(1, sizeof out));
    }
    one_and_two = outgoing_of(1, 1, 2, shortest, one_error);
    one_and_two.statistics[1].update.local = UINT32_MAX;
    CONSTANT(BASILOTHYN_BOOLEAN_INVALID, 7, writing(1, sizeof out));
}

int main(void)
{
    test_read(0, 0, 0, shortest);
    test_read(0, 0, 1, shortest);
    test_read(1, 1, 3, (struct lengths){3, 13, 20});
    test_read(8, 16, 8, longest);
    test_cuts();
    test_ranges();
    test_limits();
    test_padding_and_local();
    test_times();
    test_reading_order();
    test_written(0, 0, 0, shortest, 8);
    test_written(0, 0, 1, shortest, 256);
    test_written(1, 1, 3, (struct lengths){3, 13, 20}, 68 + 3 * 276);
    test_written(8, 16, 8, longest, 6856);
    test_order_of_reports();
    test_order_of_records();
    test_limits_of_records();
    return ended();
}
