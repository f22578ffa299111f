/* Calls each side on the same inputs, holds the answers against each other, and measures both calls: instructions between two
 * markers, which the plugin counts and prints, and bytes of stack, by a painted stack. One line for each measure:
 *     row ROW | SIDE | BYTES
 * and behind it the plugin's line. The Rattle functions are called as Rattle calls them: every struct, enum and slice by a pointer,
 * the result through the first one. */
#include "driver.h"

/* ---- inputs */

static struct device device;
static struct table before, table;
static u16 inputs[512], outputs[512];
static struct run input_pool = { inputs, 512 }, output_pool = { outputs, 512 };
static u8 payload_bytes[300], rattle_bytes[128], rust_bytes[128];
static struct run payload = { payload_bytes, 0 }, rattle_out = { rattle_bytes, 128 }, rust_out = { rust_bytes, 128 };
static u64 ieee_addr = 0x0102030405060708;
static u16 nwk_addr = 0x1234;
static u64 rust_kept[4096], rust_table_kept[512], rust_request[64], rust_response[64];
static const void *rust_dev;

static void must(int holds, const char *what) {
    if (holds) return;
    dprintf(2, "driver: %s\n", what);
    _exit(1);
}

static void pay(const u8 *bytes, u64 length) {
    memcpy(payload_bytes, bytes, length);
    payload.length = length;
}

static void clear_outs(void) {
    memset(rattle_bytes, 0xa5, sizeof rattle_bytes);
    memset(rust_bytes, 0xa5, sizeof rust_bytes);
}

/* Document 01's device without records. */
static void no_records(void) {
    memset(&device, 0, sizeof device);
    device.node = (struct node){ { 2, 0 }, 0, 0, 8, 0x80, 0xabcd, 0x52, 0x80, 0x2c00, 0x80, 0 };
    device.power = (struct power){ { 2, 0 }, 4, { 2, 0 }, { 2, 0 } };
}

static void record(u8 endpoint, u8 version, u16 id, u16 in, u16 ins, u16 out, u16 outs) {
    device.records[device.count++] = (struct record){ endpoint, version, 0x0104, id, in, ins, out, outs };
}

static void both_devices(void) {
    must(rust_device_size() <= sizeof rust_kept, "no room for the Rust's device");
    rust_dev = rust_device(rust_kept, device.records, device.count, inputs, outputs);
}

/* Document 01's device. */
static void our_device(void) {
    static const u16 in[4] = { 0x0000, 0x0402, 0x0000, 0x0500 };
    no_records();
    memcpy(inputs, in, sizeof in);
    outputs[0] = 0x0019;
    record(1, 0x11, 0x0302, 0, 2, 0, 1);
    record(2, 0, 0x0402, 2, 2, 1, 0);
    both_devices();
}

/* A bind request of ours for a device, which differs from every other in its address. */
static void bind_request(u8 which) {
    u8 bytes[22] = { 10, 8, 7, 6, 5, 4, 3, 2, 1, 1, 2, 4, 3, which, 1, 2, 3, 4, 5, 6, 7, 9 };
    pay(bytes, sizeof bytes);
}

/* ---- the two binding tables */

static void both_tables_alike(const struct table *ours) {
    struct binding held;
    for (u64 i = 0; i <= ours->count; i++) {
        memset(&held, 0, sizeof held);
        must(rust_entry(rust_table_kept, i, &held) == ours->count, "the tables differ in their counts");
        if (i < ours->count) must(!memcmp(&held, &ours->entries[i], 15), "the tables differ in an entry");
    }
}

/* Tables that hold so many entries, made by each side itself. */
static void filled(u64 count) {
    struct linked linked;
    must(rust_table_size() <= sizeof rust_table_kept, "no room for the Rust's table");
    memset(&before, 0, sizeof before);
    for (u64 i = 0; i < 32; i++) before.entries[i].mode = 1;
    before.limit = 32;
    rust_table(rust_table_kept);
    for (u64 i = 0; i < count; i++) {
        bind_request(i);
        parse_and_bind(&linked, &before, &payload);
        before = linked.table;
        must(rust_bind(rust_table_kept, &payload) == 0, "the Rust did not bind");
    }
    both_tables_alike(&before);
}

/* ---- rows */

static void node_row(void) {
    struct written written;
    u64 length = 0;
    our_device();
    clear_outs();
    MEASURE("node reply", "rattle", , node_desc_rsp(&written, &device.node, 7, &nwk_addr, &rattle_out));
    MEASURE("node reply", "rust", , length = rust_node(rust_dev, 7, nwk_addr, &rust_out));
    must(!written.tag && written.length == length, "node replies of different lengths");
    must(!memcmp(rattle_bytes, rust_bytes, 128), "node replies differ");
}

static void simple_row(const char *row, u16 ins, u16 outs) {
    struct written written;
    u64 length = 0;
    no_records();
    for (u16 i = 0; i < 512; i++) inputs[i] = 3 * i, outputs[i] = 5 * i;
    record(1, 1, 0x0302, 7, ins, 9, outs);
    both_devices();
    clear_outs();
    MEASURE(row, "rattle", , simple_desc_rsp(&written, &device, 7, &nwk_addr, 1, &input_pool, &output_pool, &rattle_out));
    MEASURE(row, "rust", , length = rust_simple(rust_dev, 7, nwk_addr, 1, &rust_out));
    must(!written.tag && written.length == length, "simple replies of different lengths");
    must(!memcmp(rattle_bytes, rust_bytes, 128), "simple replies differ");
}

static int same_parsed(const struct parsed *a, const struct parsed *b) {
    return a->seq == b->seq && a->src_address == b->src_address && a->src_endpoint == b->src_endpoint && a->cluster_id == b->cluster_id &&
        a->group == b->group && a->ieee == b->ieee && a->endpoint == b->endpoint;
}

/* A request to a device: the only kind that is measured. */
static void parse_row(void) {
    struct bind_req_read read;
    bind_request(1);
    MEASURE("parse a bind request", "rattle", , parse_bind_req(&read, &payload));
    MEASURE("parse a bind request", "rust", , rust_parse(&payload, rust_request));
    struct bind_req q = read.request;
    struct parsed ours = { q.seq, q.src_address, q.src_endpoint, q.cluster_id, 0, q.destination.ieee, q.destination.endpoint }, theirs;
    memset(&theirs, 0, sizeof theirs);
    must(!read.tag && q.destination.device && rust_parsed(rust_request, &theirs), "a request was not parsed");
    must(same_parsed(&ours, &theirs), "the requests differ");
}

/* The table is as before for each of the calls that a measure makes. */
static void bind_row(const char *row, u64 count, u8 which, u8 status) {
    struct linked linked;
    u8 said = 0;
    filled(count);
    bind_request(which);
    MEASURE(row, "rattle", , parse_and_bind(&linked, &before, &payload));
    MEASURE(row, "rust", (filled(count), bind_request(which)), said = rust_bind(rust_table_kept, &payload));
    must(linked.status == 2 * status && said == status, "binds of different statuses");
    both_tables_alike(&linked.table);
}

static void unbind_row(const char *row, u64 count, u8 which) {
    struct linked linked;
    u8 said = 0;
    filled(count);
    bind_request(which);
    MEASURE(row, "rattle", , parse_and_unbind(&linked, &before, &payload));
    MEASURE(row, "rust", (filled(count), bind_request(which)), said = rust_unbind(rust_table_kept, &payload));
    must(linked.status == 0 && said == 0, "unbinds of different statuses");
    both_tables_alike(&linked.table);
}

/* What a caller pays who puts the table that it gets back where the old one was. */
static void copy_row(void) {
    filled(5);
    MEASURE("copy a table", "rattle", , copied(&table, &before));
}

/* A match request for so many inputs, from a number on. */
static struct match_req match_request(u16 clusters, u16 from) {
    u8 bytes[300] = { 9, 0x34, 0x12, 0x04, 0x01, clusters };
    for (u16 i = 0; i < clusters; i++) {
        bytes[6 + 2 * i] = (from + i) % 256;
        bytes[7 + 2 * i] = (from + i) / 256;
    }
    pay(bytes, 7 + 2 * clusters);
    return (struct match_req){ 9, 0x1234, 0x0104, { 6, clusters }, { 7 + 2 * clusters, 0 } };
}

/* So many records, each of so many inputs, and a request for as many; held by the device, or lent. The Rust's device lends them. */
static void matching_row(u64 records, u16 clusters, int shared, int lent) {
    char row[80];
    struct matching matching;
    u64 count = 0;
    no_records();
    for (u16 i = 0; i < 512; i++) inputs[i] = 0x0400 + i;
    for (u64 i = 0; i < records; i++) record(i + 1, 0, 0x0302, 0, clusters, 0, 0);
    both_devices();
    struct match_req request = match_request(clusters, shared ? 0x0400 : 0x1400);
    rust_match_request(&payload, rust_request);
    clear_outs();
    snprintf(row, sizeof row, "match %u %srecords of %u, %s", (unsigned)records, lent ? "lent " : "", clusters, shared ? "early hit" : "none shared");
    struct run run = { device.records, records };
    if (lent)
        MEASURE(row, "rattle", , matching_endpoints_lent(&matching, &run, &input_pool, &output_pool, &request, &payload, &rattle_out));
    else
        MEASURE(row, "rattle", , matching_endpoints(&matching, &device, &input_pool, &output_pool, &request, &payload, &rattle_out));
    MEASURE(row, "rust", , count = rust_matching(rust_dev, rust_request, &rust_out));
    must(!matching.tag && matching.written == count && count == (shared ? records : 0), "matches of different counts");
    must(!memcmp(rattle_bytes, rust_bytes, 128), "matches differ");
}

/* Whether the Rust's response is this one. */
static int same_said(const struct response *ours) {
    struct said said;
    memset(&said, 0, sizeof said);
    rust_said(rust_response, &said);
    if (ours->tag == 0) return !said.leave && !said.refused && said.cluster == ours->cluster && said.length == ours->length;
    const struct leave_req *q = &ours->leave;
    return ours->tag == 1 && said.leave && said.seq == q->seq && said.device == (q->device.none ? 0 : q->device.address) &&
        said.remove_children == q->remove_children && said.rejoin == q->rejoin;
}

static void dispatch_row(const char *row, u16 cluster, const u8 *bytes, u64 length) {
    struct responded responded;
    our_device();
    filled(5);
    pay(bytes, length);
    clear_outs();
    MEASURE(row, "rattle", , dispatch(&responded, &device, &ieee_addr, &nwk_addr, &input_pool, &output_pool, &before, cluster, &payload, &rattle_out));
    MEASURE(row, "rust", (filled(5), pay(bytes, length)), rust_dispatch(rust_response, rust_dev, ieee_addr, nwk_addr, rust_table_kept, cluster, &payload, &rust_out));
    must(same_said(&responded.response), "responses differ");
    must(!memcmp(rattle_bytes, rust_bytes, 128), "replies differ");
    both_tables_alike(&responded.table);
}

#define DISPATCH(row, cluster, ...) do { \
    static const u8 bytes[] = { __VA_ARGS__ }; \
    dispatch_row("dispatch " row, cluster, bytes, sizeof bytes); \
} while (0)

static void dispatch_rows(void) {
    DISPATCH("NWK_addr_req", 0x0000, 7, 8, 7, 6, 5, 4, 3, 2, 1, 0, 0);
    DISPATCH("IEEE_addr_req", 0x0001, 7, 0x34, 0x12, 0, 0);
    DISPATCH("Node_Desc_req", 0x0002, 7, 0x34, 0x12);
    DISPATCH("Power_Desc_req", 0x0003, 7, 0x34, 0x12);
    DISPATCH("Simple_Desc_req", 0x0004, 7, 0x34, 0x12, 1);
    DISPATCH("Active_EP_req", 0x0005, 7, 0x34, 0x12);
    DISPATCH("Match_Desc_req", 0x0006, 9, 0x34, 0x12, 0x04, 0x01, 1, 2, 4, 0);
    DISPATCH("Bind_req", 0x0021, 10, 8, 7, 6, 5, 4, 3, 2, 1, 1, 2, 4, 3, 99, 1, 2, 3, 4, 5, 6, 7, 9);
    DISPATCH("Unbind_req", 0x0022, 10, 8, 7, 6, 5, 4, 3, 2, 1, 1, 2, 4, 3, 0, 1, 2, 3, 4, 5, 6, 7, 9);
    DISPATCH("Mgmt_Leave_req", 0x0034, 7, 8, 7, 6, 5, 4, 3, 2, 1, 0x80);
}

int main(void) {
    static const u16 records[3] = { 2, 8, 32 }, clusters[3] = { 2, 16, 64 };
    node_row();
    simple_row("simple reply, 3 clusters", 2, 1);
    simple_row("simple reply, 28 clusters", 14, 14);
    parse_row();
    bind_row("parse and bind into 0", 0, 40, 0);
    bind_row("parse and bind into 5", 5, 40, 0);
    bind_row("parse and bind into 31", 31, 40, 0);
    bind_row("parse and bind into 32, full", 32, 40, 1);
    bind_row("parse and bind into 32, duplicate", 32, 31, 0);
    unbind_row("parse and unbind the first of 32", 32, 0);
    unbind_row("parse and unbind the last of 32", 32, 31);
    for (int shared = 0; shared < 2; shared++)
        for (int r = 0; r < 3; r++)
            for (int c = 0; c < 3; c++) matching_row(records[r], clusters[c], shared, 0);
    for (int shared = 0; shared < 2; shared++)
        for (int r = 0; r < 3; r++)
            for (int c = 0; c < 2; c++) matching_row(records[r], clusters[c], shared, 1);
    dispatch_rows();
    copy_row();
    return 0;
}
