/* What the benchmark calls of the generated code: each reader decodes from memory and frees what it has decoded. */
#include <string.h>

#include "flexfiles.h"

static int decode(char *bytes, unsigned length, xdrproc_t type, void *value)
{
    XDR stream;
    xdrmem_create(&stream, bytes, length, XDR_DECODE);
    return type(&stream, value) && xdr_getpos(&stream) == length;
}

int rpcgen_read_layout(char *bytes, unsigned length)
{
    ff_layout4 layout;
    memset(&layout, 0, sizeof layout);
    int whole = decode(bytes, length, (xdrproc_t)xdr_ff_layout4, &layout);
    xdr_free((xdrproc_t)xdr_ff_layout4, &layout);
    return whole;
}

int rpcgen_read_device(char *bytes, unsigned length)
{
    ff_device_addr4 device;
    memset(&device, 0, sizeof device);
    int whole = decode(bytes, length, (xdrproc_t)xdr_ff_device_addr4, &device);
    xdr_free((xdrproc_t)xdr_ff_device_addr4, &device);
    return whole;
}

int rpcgen_read_reports(char *bytes, unsigned length)
{
    ff_layoutreturn4 reports;
    memset(&reports, 0, sizeof reports);
    int whole = decode(bytes, length, (xdrproc_t)xdr_ff_layoutreturn4, &reports);
    xdr_free((xdrproc_t)xdr_ff_layoutreturn4, &reports);
    return whole;
}

/* What is to be written: decoded once for each body, before anything is measured. */
static ff_layoutreturn4 kept;

int rpcgen_keep_reports(char *bytes, unsigned length)
{
    /* A decoder fills the lists that it finds, however long they are. */
    xdr_free((xdrproc_t)xdr_ff_layoutreturn4, &kept);
    memset(&kept, 0, sizeof kept);
    return decode(bytes, length, (xdrproc_t)xdr_ff_layoutreturn4, &kept);
}

/* How many bytes were written, 0 where they do not fit. */
unsigned rpcgen_write_reports(char *out, unsigned length)
{
    XDR stream;
    xdrmem_create(&stream, out, length, XDR_ENCODE);
    return xdr_ff_layoutreturn4(&stream, &kept) ? xdr_getpos(&stream) : 0;
}
