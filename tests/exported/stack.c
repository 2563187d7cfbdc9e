/*
 * How much stack each function of the header takes, its arguments and its result counted: it is called on a thread
 * whose stack was painted, and the lowest byte that changed is looked for. Ends with 'N checks', or says which call
 * takes more than BASILOTHYN_STACK, the dynamic linker's part in a first call of memmove counted.
 */
#include "calls.h"

#include <pthread.h>
#include <stdlib.h>

enum { PAINTED = 1 << 20, PAINT = 165, LINKER = 3250 };

/* What the calls take and give stands outside of the stack. */
static struct file f, in_both;
static struct bytes granted, layout, device, reports, returned;
static struct basilothyn_report_heads heads;
static struct basilothyn_error errors[128];
static struct basilothyn_outgoing outgoing;
static uint8_t out[BASILOTHYN_LONGEST_RETURN];
static struct basilothyn_event_result event;
static struct basilothyn_locate_result located;
static struct basilothyn_layout_result layout_read;
static struct basilothyn_layout4_result layout4_read;
static struct basilothyn_device_result device_read;
static struct basilothyn_bind_result bound;
static struct basilothyn_reports_result reports_read;
static struct basilothyn_error_result error_read;
static struct basilothyn_statistics_result statistics_read;
static struct basilothyn_write_result written;

static void call_nothing(void) {}
static void call_empty_table(void) { f.table = basilothyn_empty_table(); }
static void call_grant(void)
{
    event = basilothyn_grant(f.table, f.store, sizeof f.store, granted.at, granted.length);
}
static void call_return(void) { event = basilothyn_return(event.table, f.store, sizeof f.store, 100, 1, 3); }
static void call_recall(void) { event = basilothyn_recall(event.table, f.store, sizeof f.store, 50, 10, 3); }
static void call_locate_read(void) { located = basilothyn_locate_read(event.table, f.store, sizeof f.store, 0, 1); }
/* RW has flag 4, so that READ is looked at too. */
static void call_locate_read_in_both(void)
{
    located = basilothyn_locate_read(in_both.table, in_both.store, sizeof in_both.store, 0, 1);
}
static void call_locate_write(void) { located = basilothyn_locate_write(event.table, f.store, sizeof f.store, 0, 1); }
static void call_revoke(void) { event = basilothyn_revoke(event.table, f.store, sizeof f.store); }
static void call_read_layout(void) { layout_read = basilothyn_read_layout(layout.at, layout.length); }
static void call_read_layout4(void) { layout4_read = basilothyn_read_layout4(granted.at, granted.length); }
static void call_read_device(void) { device_read = basilothyn_read_device(device.at, device.length); }
static void call_bind(void)
{
    bound = basilothyn_bind(layout.at, layout.length, 0, 0, device.at, device.length, layout.at + 16, 15);
}
static void call_read_reports(void) { reports_read = basilothyn_read_reports(reports.at, reports.length); }
static void call_read_error(void) { error_read = basilothyn_read_error(reports.at, reports.length, 40); }
static void call_write_report(void) { written = basilothyn_write_report(8, heads, errors, 128, out, sizeof out); }
static void call_read_reports_of_both(void) { reports_read = basilothyn_read_reports(returned.at, returned.length); }
static void call_read_statistics(void)
{
    statistics_read = basilothyn_read_statistics(returned.at, returned.length);
}
static void call_write_return(void) { written = basilothyn_write_return(outgoing, errors, 128, out, sizeof out); }

static const struct {
    const char *name;
    void (*call)(void);
    const uint32_t *refusal;
} calls[] = {
    {"nothing", call_nothing, NULL},
    {"basilothyn_empty_table", call_empty_table, NULL},
    {"basilothyn_grant", call_grant, &event.refusal},
    {"basilothyn_return", call_return, &event.refusal},
    {"basilothyn_recall", call_recall, &event.refusal},
    {"basilothyn_locate_read", call_locate_read, &located.refusal},
    {"basilothyn_locate_read", call_locate_read_in_both, &located.refusal},
    {"basilothyn_locate_write", call_locate_write, &located.refusal},
    {"basilothyn_revoke", call_revoke, &event.refusal},
    {"basilothyn_read_layout", call_read_layout, &layout_read.refusal},
    {"basilothyn_read_layout4", call_read_layout4, &layout4_read.refusal},
    {"basilothyn_read_device", call_read_device, &device_read.refusal},
    {"basilothyn_bind", call_bind, &bound.refusal},
    {"basilothyn_read_reports", call_read_reports, &reports_read.refusal},
    {"basilothyn_read_error", call_read_error, &error_read.refusal},
    {"basilothyn_write_report", call_write_report, &written.refusal},
    {"basilothyn_read_reports", call_read_reports_of_both, &reports_read.refusal},
    {"basilothyn_read_statistics", call_read_statistics, &statistics_read.refusal},
    {"basilothyn_write_return", call_write_return, &written.refusal},
};

static uint8_t *stack, *volatile entered;

static void *on_thread(void *number)
{
    uint8_t here = 0;

    entered = &here;
    calls[*(const size_t *)number].call();
    return NULL;
}

/* The bytes of stack below the place where the thread stands before the call. */
static size_t taken(size_t number)
{
    pthread_attr_t attributes;
    pthread_t thread;
    size_t lowest = 0;

    memset(stack, PAINT, PAINTED);
    if (pthread_attr_init(&attributes) || pthread_attr_setstack(&attributes, stack, PAINTED) ||
        pthread_create(&thread, &attributes, on_thread, &number) || pthread_join(thread, NULL))
        exit(2);
    pthread_attr_destroy(&attributes);
    while (lowest < PAINTED && stack[lowest] == PAINT)
        lowest++;
    return (size_t)(entered - stack) - lowest;
}

/* The largest bodies, so that every loop is gone through. */
static void prepare(void)
{
    static const struct version_plan v = {4, 1, 512, 512, 1};
    struct layout_plan p = smallest;

    p.unit = 4096;
    p.mirrors = 4;
    p.servers = 16;
    f = new_file();
    granted = layout4(0, WHOLE, 2, p);
    layout = layout_body(p);
    p.flags = 4;
    in_both = new_file();
    CHECK(grant(&in_both, 0, WHOLE, 2, p) == 0);
    p.flags = 0;
    CHECK(grant(&in_both, 0, WHOLE, 1, p) == 0);
    device = device_body(8, "tcp", "192.0.2.1.8.1", 1, &v);
    reports = report_body(8, 16);
    returned = return_body(8, 16, 8, longest);
    outgoing = outgoing_of(8, 16, 8, longest, errors);
    memcpy(heads.heads, outgoing.heads, sizeof heads.heads);
}

int main(void)
{
    prepare();
    if (posix_memalign((void **)&stack, 4096, PAINTED))
        return 2;
    tested("BASILOTHYN_STACK");
    for (size_t i = 0; i < ENTRIES(calls); i++) {
        size_t bytes = taken(i);

        printf("stack %s %zu\n", calls[i].name, bytes);
        check(calls[i].refusal == NULL || *calls[i].refusal == 0, calls[i].name, __FILE__, __LINE__);
        check(bytes + LINKER <= BASILOTHYN_STACK, calls[i].name, __FILE__, __LINE__);
    }
    CHECK(taken(0) < 256 && sizeof f == 34320);
    return ended();
}
