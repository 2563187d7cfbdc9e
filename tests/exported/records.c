/* Prints how each record of the header is laid out: its size, and the place of each field. */
#include "basilothyn.h"

#include <stddef.h>
#include <stdio.h>

#define RECORD(name) printf("\n" #name " %zu", sizeof(struct basilothyn_##name))
#define FIELD(name, field) printf(" " #field "@%zu", offsetof(struct basilothyn_##name, field))

static void parts_of_statistics(void) {
    RECORD(time);
    FIELD(time, seconds);
    FIELD(time, nanoseconds);
    RECORD(io_info);
    FIELD(io_info, count);
    FIELD(io_info, bytes);
    RECORD(latency);
    FIELD(latency, ops_requested);
    FIELD(latency, bytes_requested);
    FIELD(latency, ops_completed);
    FIELD(latency, bytes_completed);
    FIELD(latency, bytes_not_delivered);
    FIELD(latency, busy);
    FIELD(latency, completion);
    RECORD(netid);
    FIELD(netid, length);
    FIELD(netid, bytes);
    RECORD(address_text);
    FIELD(address_text, length);
    FIELD(address_text, bytes);
    RECORD(filehandle);
    FIELD(filehandle, length);
    FIELD(filehandle, bytes);
}

static void records_of_statistics(void) {
    RECORD(netaddr);
    FIELD(netaddr, netid);
    FIELD(netaddr, text);
    RECORD(layout_update);
    FIELD(layout_update, address);
    FIELD(layout_update, filehandle);
    FIELD(layout_update, read);
    FIELD(layout_update, write);
    FIELD(layout_update, duration);
    FIELD(layout_update, local);
    RECORD(statistic);
    FIELD(statistic, offset);
    FIELD(statistic, length);
    FIELD(statistic, stateid);
    FIELD(statistic, read);
    FIELD(statistic, write);
    FIELD(statistic, device);
    FIELD(statistic, update);
    RECORD(statistics_result);
    FIELD(statistics_result, refusal);
    FIELD(statistics_result, count);
    FIELD(statistics_result, statistics);
    RECORD(outgoing);
    FIELD(outgoing, count);
    FIELD(outgoing, heads);
    FIELD(outgoing, statistic_count);
    FIELD(outgoing, statistics);
}

int main(void) {
    RECORD(segment);
    FIELD(segment, first);
    FIELD(segment, last);
    FIELD(segment, kind);
    FIELD(segment, slot);
    RECORD(table);
    FIELD(table, read);
    FIELD(table, rw);
    FIELD(table, read_count);
    FIELD(table, rw_count);
    RECORD(event_result);
    FIELD(event_result, refusal);
    FIELD(event_result, table);
    RECORD(locate_result);
    FIELD(locate_result, refusal);
    FIELD(locate_result, iomode);
    FIELD(locate_result, slot);
    FIELD(locate_result, stripe);
    FIELD(locate_result, offset);
    FIELD(locate_result, length);
    FIELD(locate_result, mirrors);
    RECORD(part);
    FIELD(part, start);
    FIELD(part, length);
    RECORD(summary);
    FIELD(summary, unit);
    FIELD(summary, mirrors);
    FIELD(summary, servers);
    FIELD(summary, flags);
    FIELD(summary, hint);
    RECORD(layout_result);
    FIELD(layout_result, refusal);
    FIELD(layout_result, summary);
    FIELD(layout_result, starts);
    RECORD(layout4_result);
    FIELD(layout4_result, refusal);
    FIELD(layout4_result, iomode);
    FIELD(layout4_result, offset);
    FIELD(layout4_result, length);
    FIELD(layout4_result, last);
    FIELD(layout4_result, body);
    FIELD(layout4_result, summary);
    FIELD(layout4_result, starts);
    RECORD(address);
    FIELD(address, netid_class);
    FIELD(address, text);
    RECORD(version);
    FIELD(version, version);
    FIELD(version, minor);
    FIELD(version, rsize);
    FIELD(version, wsize);
    FIELD(version, tight);
    RECORD(device_result);
    FIELD(device_result, refusal);
    FIELD(device_result, address_count);
    FIELD(device_result, version_count);
    FIELD(device_result, addresses);
    FIELD(device_result, versions);
    RECORD(bind_result);
    FIELD(bind_result, refusal);
    FIELD(bind_result, entry);
    FIELD(bind_result, version);
    FIELD(bind_result, filehandle);
    FIELD(bind_result, stateid);
    FIELD(bind_result, user);
    FIELD(bind_result, group);
    RECORD(report_head);
    FIELD(report_head, offset);
    FIELD(report_head, length);
    FIELD(report_head, stateid);
    FIELD(report_head, errors);
    RECORD(reports_result);
    FIELD(reports_result, refusal);
    FIELD(reports_result, count);
    FIELD(reports_result, heads);
    FIELD(reports_result, errors_at);
    RECORD(error_result);
    FIELD(error_result, refusal);
    FIELD(error_result, device);
    FIELD(error_result, status);
    FIELD(error_result, operation);
    RECORD(report_heads);
    FIELD(report_heads, heads);
    RECORD(error);
    FIELD(error, device);
    FIELD(error, status);
    FIELD(error, operation);
    RECORD(write_result);
    FIELD(write_result, refusal);
    FIELD(write_result, length);
    parts_of_statistics();
    records_of_statistics();
    printf("\n");
    return 0;
}
