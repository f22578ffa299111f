/* The layouts of both sides' values, their functions, and what measures a call. The kit has no headers of C's library. */
typedef unsigned char u8;
typedef unsigned short u16;
typedef unsigned long u64;

int dprintf(int, const char *, ...);
int snprintf(char *, u64, const char *, ...);
int memcmp(const void *, const void *, u64);
void *memcpy(void *, const void *, u64);
void *memset(void *, int, u64);
void _exit(int) __attribute__((noreturn));

/* ---- Rattle's structs, fields in their order; an enum is a byte and then what it holds */

struct run { void *start; u64 length; };
struct record { u8 endpoint, device_version; u16 profile_id, device_id, input_start, input_count, output_start, output_count; };
struct node { u8 type[2], complex, user, band, mac; u16 maker; u8 buffer; u16 incoming, mask, outgoing; u8 capabilities; };
struct power { u8 mode[2], sources, source[2], level[2]; };
struct device { struct node node; struct power power; struct record records[32]; u64 count; };
struct binding { u64 dst_ieee; u16 cluster; u8 src_endpoint, mode; u16 group; u8 dst_endpoint; };
struct table { struct binding entries[32]; u64 limit, count; };
struct linked { struct table table; u8 status, why; };
struct written { u8 tag, why; u64 length; };
struct leave_req { u8 seq; struct { u8 none; u64 address; } device; u8 remove_children, rejoin; };
struct response { u8 tag, why; u16 cluster; union { u64 length; struct leave_req leave; }; };
struct responded { struct table table; struct response response; };
struct destination { u8 device; u16 group; u64 ieee; u8 endpoint; };
struct bind_req { u8 seq; u64 src_address; u8 src_endpoint; u16 cluster_id; struct destination destination; };
struct bind_req_read { u8 tag, why; struct bind_req request; };
struct places { u64 start, count; };
struct match_req { u8 seq; u16 nwk_addr, profile_id; struct places inputs, outputs; };
struct matching { u8 tag, why; u64 written; };

_Static_assert(sizeof(struct device) == 488 && sizeof(struct linked) == 536 && sizeof(struct responded) == 568, "layouts");

/* ---- what both sides say, in one form */

struct said { u16 cluster; u64 length; u8 leave, seq; u64 device; u8 remove_children, rejoin, refused; };
struct parsed { u8 seq; u64 src_address; u8 src_endpoint; u16 cluster_id, group; u64 ieee; u8 endpoint; };

#define RATTLE(name, path) name __asm__(path)
void RATTLE(node_desc_rsp(struct written *, const struct node *, u8, const u16 *, const struct run *), "zdo_desc_rsp::descriptor::node_desc_rsp");
void RATTLE(simple_desc_rsp(struct written *, const struct device *, u8, const u16 *, u8, const struct run *, const struct run *, const struct run *), "zdo_device_rsp::descriptor::simple_desc_rsp");
void RATTLE(parse_bind_req(struct bind_req_read *, const struct run *), "zdo_bind_req::descriptor::parse_bind_req");
void RATTLE(parse_and_bind(struct linked *, const struct table *, const struct run *), "bench::parse_and_bind");
void RATTLE(parse_and_unbind(struct linked *, const struct table *, const struct run *), "bench::parse_and_unbind");
void RATTLE(matching_endpoints(struct matching *, const struct device *, const struct run *, const struct run *, const struct match_req *, const struct run *, const struct run *), "zdo_matching::descriptor::matching_endpoints");
void RATTLE(matching_endpoints_lent(struct matching *, const struct run *, const struct run *, const struct run *, const struct match_req *, const struct run *, const struct run *), "zdo_lent_records::descriptor::matching_endpoints_lent");
void RATTLE(dispatch(struct responded *, const struct device *, const u64 *, const u16 *, const struct run *, const struct run *, const struct table *, u16, const struct run *, const struct run *), "zdo_dispatcher::dispatcher::dispatch");

u64 rust_node(const void *, u8, u16, const struct run *);
u64 rust_simple(const void *, u8, u16, u8, const struct run *);
void rust_parse(const struct run *, void *);
u8 rust_bind(void *, const struct run *);
u8 rust_unbind(void *, const struct run *);
void rust_match_request(const struct run *, void *);
u64 rust_matching(const void *, const void *, const struct run *);
void rust_dispatch(void *, const void *, u64, u16, void *, u16, const struct run *, const struct run *);
void rust_said(const void *, struct said *);
u8 rust_parsed(const void *, struct parsed *);
const void *rust_device(void *, const struct record *, u64, const u16 *, const u16 *);
u64 rust_device_size(void);
void rust_table(void *);
u64 rust_table_size(void);
u64 rust_entry(const void *, u64, struct binding *);

/* ---- measuring */

#define BEGIN __asm__ volatile(".byte 0x0f,0x1f,0x80,0x01,0x4b,0x45,0x42" ::: "memory")
#define END __asm__ volatile(".byte 0x0f,0x1f,0x80,0x02,0x4b,0x45,0x42" ::: "memory")
#define PAINTED 16384
#define PAINT(word) ((u64)(word) * 0x9e3779b97f4a7c15ul)

static inline __attribute__((always_inline)) u64 stack_pointer(void) {
    u64 sp;
    __asm__ volatile("mov %%rsp, %0" : "=r"(sp));
    return sp & ~7ul;
}

/* The bytes from the deepest word that was written up to the stack pointer. */
#define DEPTH(sp, depth) do { \
    volatile u64 *word_ = (volatile u64 *)(sp - PAINTED); \
    while ((u64)word_ < sp && *word_ == PAINT(word_)) word_++; \
    depth = sp - (u64)word_; \
} while (0)

/* Three calls, each after PREPARE: to warm up, on a painted stack, and counted. */
#define MEASURE(row, side, PREPARE, CALL) do { \
    u64 depth_, sp_ = stack_pointer(); \
    PREPARE; CALL; \
    PREPARE; \
    for (volatile u64 *w_ = (volatile u64 *)(sp_ - PAINTED); (u64)w_ < sp_; w_++) *w_ = PAINT(w_); \
    CALL; \
    DEPTH(sp_, depth_); \
    PREPARE; \
    dprintf(1, "row %s | %s | %lu\n", row, side, depth_); \
    BEGIN; CALL; END; \
} while (0)

static __attribute__((noinline)) void copied(struct table *to, const struct table *from) {
    memcpy(to, from, sizeof *to);
    __asm__ volatile("" ::"r"(to) : "memory");
}
