/*
 * Times the proved calls beside libpcap, liburcu and plain C. Each repetition times each contestant of a work once, by turns, so that
 * what else the machine does meets all of them. A line of the output is one time, with tabs between: work,
 * contestant, nanoseconds for one call.
 *
 * Usage: driver REPETITIONS [WORK..]; a work is taken where its name begins with a word given. HAVE_PCAP and HAVE_URCU tell what is
 * installed. Before it times programs it runs them on packets, and ends with status 1 where libpcap answers otherwise.
 */
#define _GNU_SOURCE
#include <dswitch.h>
#include <stdatomic.h>
#include <stdbool.h>
#include <stdio.h>
#include <stdlib.h>
#include <string.h>
#include <time.h>
#ifdef HAVE_PCAP
#include <pcap/pcap.h>
#endif
#ifdef HAVE_URCU
#include <urcu/urcu-memb.h>
#endif

/* crates/bench_calls: each opens a table at a script's configuration, and then makes so many rounds. */
uint64_t measured_section(const uint8_t *script, size_t length, uint64_t rounds);
uint64_t measured_judge(const uint8_t *script, size_t length, const uint8_t *packet, size_t bytes, uint64_t rounds);
uint64_t measured_kind(const uint8_t *script, size_t length, const uint8_t *packet, size_t bytes, uint64_t rounds);
uint64_t measured_count(const uint8_t *script, size_t length, const uint8_t *packet, size_t bytes, uint64_t adds, uint64_t rounds);
uint64_t measured_line(const uint8_t *script, size_t length, const uint8_t *text, size_t bytes, const uint8_t *other, size_t more,
                       uint64_t rounds);
uint64_t measured_change(const uint8_t *script, size_t length, uint64_t publishes, uint64_t rounds);

enum { MOST = 4096, PACKET = 60, PACKETS = 256, CONTESTANTS = 4, SCRIPT = 1 << 20, LINES = 1000, FEW_LINES = 100 };

/* A call that is timed: it makes so many rounds over what `about` points to. */
typedef void rounds_fn(const void *about, uint64_t rounds);

/* `base`, where there is one, makes rounds of what is not to be in the time. */
struct contestant {
    const char *name;
    rounds_fn *make;
    rounds_fn *base;
};

static volatile uint64_t kept;
static int repetitions;
static char **chosen;
static int choices;
/* The contestant whose instructions are counted, if that is asked, and how many rounds it makes. */
static const char *counted;
static uint64_t counted_rounds;

static double now(void) {
    struct timespec at;
    clock_gettime(CLOCK_MONOTONIC, &at);
    return 1e9 * at.tv_sec + at.tv_nsec;
}

static double time_of(rounds_fn *make, const void *about, uint64_t rounds) {
    double begin = now();
    make(about, rounds);
    return now() - begin;
}

static bool is_chosen(const char *work) {
    for (int i = 0; i < choices; i++)
        if (strncmp(work, chosen[i], strlen(chosen[i])) == 0)
            return true;
    return choices == 0;
}

/* Times a work: what it costs to begin, without a round, is taken off, or the rounds of the base. */
static void measure(const char *work, const struct contestant *list, int count, const void *about) {
    uint64_t rounds[CONTESTANTS];
    if (!is_chosen(work))
        return;
    if (counted != NULL) {
        for (int c = 0; c < count; c++)
            if (strcmp(list[c].name, counted) == 0)
                list[c].make(about, counted_rounds);
        return;
    }
    for (int c = 0; c < count; c++) {
        double begin = time_of(list[c].make, about, 0);
        rounds[c] = 1;
        while (time_of(list[c].make, about, rounds[c]) < 2e6 + 10 * begin && rounds[c] < 1u << 30)
            rounds[c] *= 2;
    }
    for (int repetition = 0; repetition < repetitions; repetition++)
        for (int c = 0; c < count; c++) {
            double begin = time_of(list[c].make, about, 0);
            double whole = time_of(list[c].make, about, rounds[c]);
            double base = list[c].base == NULL ? begin : time_of(list[c].base, about, rounds[c]);
            printf("%s\t%s\t%.3f\n", work, list[c].name, (whole - base) / rounds[c]);
        }
    fflush(stdout);
}

/* Programs and packets. */

static uint64_t seed = 1;

static uint32_t draw(uint32_t below) {
    seed = seed * 6364136223846793005u + 1442695040888963407u;
    return (uint32_t)(seed >> 33) % below;
}

struct program {
    uint64_t words[MOST];
    size_t count;
    uint8_t packets[PACKETS][PACKET];
#ifdef HAVE_PCAP
    struct bpf_insn theirs[MOST];
#endif
};

static void push(struct program *p, uint16_t code, uint8_t jt, uint8_t jf, uint32_t k) {
#ifdef HAVE_PCAP
    p->theirs[p->count] = (struct bpf_insn){code, jt, jf, k};
#endif
    p->words[p->count++] = dswitch_word(code, jt, jf, k);
}

/* UDP, no fragment, port 53 on either side. */
static void port53(struct program *p) {
    push(p, 0x30, 0, 0, 9);
    push(p, 0x15, 0, 8, 17);
    push(p, 0x28, 0, 0, 6);
    push(p, 0x45, 6, 0, 0x1fff);
    push(p, 0xb1, 0, 0, 0);
    push(p, 0x48, 0, 0, 0);
    push(p, 0x15, 2, 0, 53);
    push(p, 0x48, 0, 0, 2);
    push(p, 0x15, 0, 1, 53);
    push(p, 0x06, 0, 0, 65535);
    push(p, 0x06, 0, 0, 0);
}

/* Loads, arithmetic, scratch cells and tests, drawn at random, up to `count` with the return. */
static void mixed(struct program *p, size_t count) {
    push(p, 0x02, 0, 0, 0);
    while (p->count + 1 < count)
        switch (draw(8)) {
        case 0: push(p, 0x30, 0, 0, draw(PACKET)); break;
        case 1: push(p, 0x28, 0, 0, draw(PACKET - 1)); break;
        case 2: push(p, 0x20, 0, 0, draw(PACKET - 3)); break;
        case 3: push(p, 0x04, 0, 0, draw(1000)); break;
        case 4: push(p, 0x54, 0, 0, draw(65536)); break;
        case 5: push(p, 0x02, 0, 0, 0); break;
        case 6: push(p, 0x60, 0, 0, 0); break;
        default: push(p, 0x07, 0, 0, 0); break;
        }
    push(p, 0x16, 0, 0, 0);
}

static void loads(struct program *p, size_t count) {
    while (p->count + 1 < count)
        push(p, 0x00, 0, 0, 1);
    push(p, 0x16, 0, 0, 0);
}

/* A byte of the packet is loaded, and a test of a bit of it skips an instruction or not. */
static void jumps(struct program *p, size_t count) {
    while (p->count + 3 < count) {
        push(p, 0x30, 0, 0, draw(PACKET));
        push(p, 0x45, draw(2), 1, 1u << draw(8));
        push(p, 0x04, 0, 0, 1);
    }
    while (p->count + 1 < count)
        push(p, 0x04, 0, 0, 1);
    push(p, 0x16, 0, 0, 0);
}

static void draw_packets(struct program *p) {
    for (int i = 0; i < PACKETS; i++) {
        for (int k = 0; k < PACKET; k++)
            p->packets[i][k] = (uint8_t)draw(256);
        p->packets[i][0] = 0x45;
        memset(p->packets[i] + 6, 0, 2);
        p->packets[i][9] = 17;
        p->packets[i][22] = 0;
        p->packets[i][23] = 53;
    }
}

static void run_ours(const void *about, uint64_t rounds) {
    const struct program *p = about;
    uint64_t sum = 0;
    for (uint64_t i = 0; i < rounds; i++)
        sum += dswitch_run(p->words, p->count, p->packets[i % PACKETS], PACKET).value;
    kept = sum;
}

static void verify_ours(const void *about, uint64_t rounds) {
    const struct program *p = about;
    uint64_t sum = 0;
    for (uint64_t i = 0; i < rounds; i++)
        sum += dswitch_verify(p->words, p->count).fault;
    kept = sum;
}

#ifdef HAVE_PCAP
static void run_theirs(const void *about, uint64_t rounds) {
    const struct program *p = about;
    uint64_t sum = 0;
    for (uint64_t i = 0; i < rounds; i++)
        sum += bpf_filter(p->theirs, p->packets[i % PACKETS], PACKET, PACKET);
    kept = sum;
}

static void verify_theirs(const void *about, uint64_t rounds) {
    const struct program *p = about;
    uint64_t sum = 0;
    for (uint64_t i = 0; i < rounds; i++)
        sum += (uint64_t)bpf_validate(p->theirs, (int)p->count);
    kept = sum;
}

static void compare(const char *name, const struct program *p) {
    for (int i = 0; i < PACKETS; i++)
        if (dswitch_run(p->words, p->count, p->packets[i], PACKET).value != bpf_filter(p->theirs, p->packets[i], PACKET, PACKET)) {
            fprintf(stderr, "%s: another value than libpcap's\n", name);
            exit(1);
        }
}
#endif

static void programs(void) {
    static const struct {
        const char *name;
        size_t count;
        void (*fill)(struct program *, size_t);
    } shapes[] = {{"11 instructions", 0, NULL}, {"100 mixed", 100, mixed}, {"4096 loads", MOST, loads}, {"4096 mixed", MOST, mixed}, {"4096 with jumps", MOST, jumps}};
    static struct program p;
    char work[64];
    for (size_t s = 0; s < sizeof shapes / sizeof *shapes; s++) {
        p.count = 0;
        if (shapes[s].fill == NULL)
            port53(&p);
        else
            shapes[s].fill(&p, shapes[s].count);
        draw_packets(&p);
        if (dswitch_verify(p.words, p.count).fault != DSWITCH_OK) {
            fprintf(stderr, "%s: no program\n", shapes[s].name);
            exit(1);
        }
        struct contestant run[CONTESTANTS], verify[CONTESTANTS];
        int count = 0;
#ifdef HAVE_PCAP
        compare(shapes[s].name, &p);
        run[count] = (struct contestant){"libpcap bpf_filter", run_theirs, NULL};
        verify[count++] = (struct contestant){"libpcap bpf_validate", verify_theirs, NULL};
#endif
        run[count] = (struct contestant){"dswitch_run", run_ours, NULL};
        verify[count++] = (struct contestant){"dswitch_verify", verify_ours, NULL};
        snprintf(work, sizeof work, "run: %s", shapes[s].name);
        measure(work, run, count, &p);
        snprintf(work, sizeof work, "verify: %s", shapes[s].name);
        measure(work, verify, count, &p);
    }
}

/* Texts. */

static void compile_ours(const void *about, uint64_t rounds) {
    static uint64_t words[DSWITCH_MAX_INSTRUCTIONS];
    uint64_t sum = 0;
    for (uint64_t i = 0; i < rounds; i++)
        sum += dswitch_compile(about, strlen(about), words, DSWITCH_MAX_INSTRUCTIONS).number;
    kept = sum;
}

static void assemble_ours(const void *about, uint64_t rounds) {
    static uint64_t words[DSWITCH_MAX_INSTRUCTIONS];
    uint64_t sum = 0;
    for (uint64_t i = 0; i < rounds; i++)
        sum += dswitch_assemble(about, strlen(about), words, DSWITCH_MAX_INSTRUCTIONS).number;
    kept = sum;
}

#ifdef HAVE_PCAP
static pcap_t *dead;

static void compile_by(const char *text, uint64_t rounds, int optimize) {
    for (uint64_t i = 0; i < rounds; i++) {
        struct bpf_program made;
        if (pcap_compile(dead, &made, text, optimize, PCAP_NETMASK_UNKNOWN) != 0) {
            fprintf(stderr, "%s: %s\n", text, pcap_geterr(dead));
            exit(1);
        }
        pcap_freecode(&made);
    }
}

static void compile_theirs(const void *about, uint64_t rounds) {
    compile_by(about, rounds, 0);
}

static void optimize_theirs(const void *about, uint64_t rounds) {
    compile_by(about, rounds, 1);
}
#endif

static void texts(void) {
    static const char *const expressions[][2] = {
        {"compile: ip", "ip"},
        {"compile: port", "port 53"},
        {"compile: udp, port, net", "udp and dst port 53 and src net 10.0.0.0/8"},
        {"compile: two accessors", "ip[8] > 10 and udp[4:2] & 0xfff < 1000"},
        {"compile: eight tests", "udp and (dst port 53 or dst port 5353 or dst port 853) and not src net 192.168.0.0/16 and not src host 10.0.0.1 and greater 40 and less 1400"},
    };
    struct contestant list[CONTESTANTS];
    int count = 0;
#ifdef HAVE_PCAP
    dead = pcap_open_dead(DLT_RAW, 65535);
    list[count++] = (struct contestant){"libpcap pcap_compile", compile_theirs, NULL};
    list[count++] = (struct contestant){"libpcap pcap_compile, optimizer", optimize_theirs, NULL};
#endif
    list[count++] = (struct contestant){"dswitch_compile", compile_ours, NULL};
    for (size_t e = 0; e < sizeof expressions / sizeof *expressions; e++)
        measure(expressions[e][0], list, count, expressions[e][1]);

    static char lines[100 * 8 + 16];
    for (int i = 0; i < 99; i++)
        strcat(lines, "ldb [9]\n");
    strcat(lines, "ret a\n");
    measure("assemble: 100 instructions", (struct contestant[]){{"dswitch_assemble", assemble_ours, NULL}}, 1, lines);
}

/* The version table. */

struct table {
    char script[SCRIPT];
    const char *line;
    const char *other;
    const uint8_t *packet;
    size_t bytes;
};

static _Atomic uint64_t limit_words[8192];

/* What a section cannot do without: announce, pin and leave, and loads of the current version, of it again and of one word. */
static void section_limit(const void *about, uint64_t rounds) {
    uint64_t sum = 0;
    (void)about;
    for (uint64_t i = 0; i < rounds; i++) {
        atomic_store(&limit_words[64], atomic_load(&limit_words[0]) + 1);
        sum += atomic_load(&limit_words[0]) + atomic_load(&limit_words[128]);
        atomic_store(&limit_words[64], 0);
    }
    kept = sum;
}

static void fill_limit(const void *about, uint64_t rounds) {
    (void)about;
    for (uint64_t i = 0; i < rounds; i++)
        for (int k = 0; k < 8192; k++)
            atomic_store(&limit_words[k], i);
}

static void section_ours(const void *about, uint64_t rounds) {
    const struct table *t = about;
    kept = measured_section((const uint8_t *)t->script, strlen(t->script), rounds);
}

static void judge_ours(const void *about, uint64_t rounds) {
    const struct table *t = about;
    kept = measured_judge((const uint8_t *)t->script, strlen(t->script), t->packet, t->bytes, rounds);
}

/* The same, and the kind of each verdict is counted in an array. */
static void kind_ours(const void *about, uint64_t rounds) {
    const struct table *t = about;
    kept = measured_kind((const uint8_t *)t->script, strlen(t->script), t->packet, t->bytes, rounds);
}

/* Each packet is judged, and its verdict is logged. */
static void log_ours(const void *about, uint64_t rounds) {
    const struct table *t = about;
    kept = measured_count((const uint8_t *)t->script, strlen(t->script), t->packet, t->bytes, 0, rounds);
}

/* The same, and each batch is added to the counters by member. */
static void count_ours(const void *about, uint64_t rounds) {
    const struct table *t = about;
    kept = measured_count((const uint8_t *)t->script, strlen(t->script), t->packet, t->bytes, 1, rounds);
}

static void line_ours(const void *about, uint64_t rounds) {
    const struct table *t = about;
    kept = measured_line((const uint8_t *)t->script, strlen(t->script), (const uint8_t *)t->line, strlen(t->line), (const uint8_t *)t->line,
                         strlen(t->line), rounds);
}

/* Two lines in turn, so that each changes a program. */
static void lines_ours(const void *about, uint64_t rounds) {
    const struct table *t = about;
    kept = measured_line((const uint8_t *)t->script, strlen(t->script), (const uint8_t *)t->line, strlen(t->line), (const uint8_t *)t->other,
                         strlen(t->other), rounds);
}

static void make_ours(const void *about, uint64_t rounds) {
    const struct table *t = about;
    kept = measured_change((const uint8_t *)t->script, strlen(t->script), 0, rounds);
}

static void publish_ours(const void *about, uint64_t rounds) {
    const struct table *t = about;
    kept = measured_change((const uint8_t *)t->script, strlen(t->script), 1, rounds);
}

#ifdef HAVE_URCU
static void section_urcu(const void *about, uint64_t rounds) {
    uint64_t sum = 0;
    (void)about;
    for (uint64_t i = 0; i < rounds; i++) {
        urcu_memb_read_lock();
        sum += atomic_load_explicit(&limit_words[128], memory_order_relaxed);
        urcu_memb_read_unlock();
    }
    kept = sum;
}
#endif

/* Groups 10.0.0.2:53 and, before it, so many less one of other addresses; each with a member, and with programs where asked. */
static void groups(struct table *t, int count, bool programs) {
    char *end = t->script;
    for (int g = 0; g < count; g++) {
        char key[32];
        snprintf(key, sizeof key, "10.0.%d.2:53", g);
        end += sprintf(end, "add %s\njoin %s 1 127.0.0.1:9001\n", key, key);
        if (programs)
            end += sprintf(end, "selector %s asm ldb [15]; and #1; ret #0\nfilter %s 1 expr udp and port 53\n", key, key);
    }
}

/* A program over words in a slice, and as the filter of a group's member, in a section of each packet. */
struct filter {
    struct program program;
    struct table with, without;
};

static void run_slice(const void *about, uint64_t rounds) {
    const struct filter *f = about;
    uint64_t sum = 0;
    for (uint64_t i = 0; i < rounds; i++)
        sum += dswitch_run(f->program.words, f->program.count, f->with.packet, f->with.bytes).value;
    kept = sum;
}

static void judge_with(const void *about, uint64_t rounds) {
    judge_ours(&((const struct filter *)about)->with, rounds);
}

static void judge_without(const void *about, uint64_t rounds) {
    judge_ours(&((const struct filter *)about)->without, rounds);
}

static void filters(const uint8_t *packet) {
    static const struct contestant list[] = {{"over a slice", run_slice, NULL}, {"in a section of its own", judge_with, judge_without}};
    static struct filter f;
    static char text[1 << 14];
    for (int large = 0; large < 2; large++) {
        f.program.count = 0;
        if (large)
            mixed(&f.program, 100);
        else
            port53(&f.program);
        size_t bytes = dswitch_print(f.program.words, f.program.count, text, sizeof text - 1).number;
        text[bytes] = 0;
        for (char *end = text; (end = strchr(end, '\n')) != NULL;)
            *end = ';';
        groups(&f.without, 1, false);
        groups(&f.with, 1, false);
        sprintf(f.with.script + strlen(f.with.script), "filter 10.0.0.2:53 1 asm %s\n", text);
        f.with.packet = f.without.packet = packet;
        f.with.bytes = f.without.bytes = PACKET;
        measure(large ? "section's program: 100 mixed" : "section's program: 11 instructions", list, 2, &f);
    }
}

/* `join` and `leave` of one member by turns: line by line, in blocks of FEW_LINES lines, and in one block of LINES. */
struct lines {
    struct table single, few, many;
};

static void lines_single(const void *about, uint64_t rounds) {
    lines_ours(&((const struct lines *)about)->single, rounds * LINES);
}

static void lines_in_few(const void *about, uint64_t rounds) {
    line_ours(&((const struct lines *)about)->few, rounds * (LINES / FEW_LINES));
}

static void lines_in_many(const void *about, uint64_t rounds) {
    line_ours(&((const struct lines *)about)->many, rounds);
}

/* Writes a block of the table's two lines by turns. */
static void block(char *text, const struct table *t, int count) {
    text += sprintf(text, "all %d", count);
    for (int i = 0; i < count; i++)
        text += sprintf(text, "\n%s", i % 2 == 0 ? t->line : t->other);
}

static void blocks(void) {
    static const struct contestant list[] = {{"one by one", lines_single, NULL}, {"ten blocks", lines_in_few, NULL}, {"one block", lines_in_many, NULL}};
    static const struct {
        const char *name;
        int groups;
        bool programs;
    } shapes[] = {{"lines: 1000, 1 group", 1, false}, {"lines: 1000, 16 groups", 16, false}, {"lines: 1000, 64 groups with programs", 64, true}};
    static struct lines l;
    static char few[FEW_LINES * 64], many[LINES * 64];
    l.single.line = "join 10.0.0.2:53 2 127.0.0.1:9002";
    l.single.other = "leave 10.0.0.2:53 2";
    block(few, &l.single, FEW_LINES);
    block(many, &l.single, LINES);
    l.few.line = few;
    l.many.line = many;
    for (size_t s = 0; s < sizeof shapes / sizeof *shapes; s++) {
        groups(&l.single, shapes[s].groups, shapes[s].programs);
        groups(&l.few, shapes[s].groups, shapes[s].programs);
        groups(&l.many, shapes[s].groups, shapes[s].programs);
        measure(shapes[s].name, list, 3, &l);
    }
}

static void tables(void) {
    static struct table t;
    static uint8_t packet[PACKET] = {0x45, 0, 0, PACKET, 0, 0, 0, 0, 64, 17, 0, 0, 10, 0, 0, 1, 10, 0, 0, 2, 0x13, 0x88, 0, 53, 0, 40, 0, 0};
    struct contestant section[CONTESTANTS];
    int count = 0;
    section[count++] = (struct contestant){"C: two stores, three loads", section_limit, NULL};
#ifdef HAVE_URCU
    urcu_memb_register_thread();
    section[count++] = (struct contestant){"liburcu, memb", section_urcu, NULL};
#endif
    section[count++] = (struct contestant){"enter, word, leave", section_ours, NULL};
    t.packet = packet;
    t.bytes = sizeof packet;
    t.line = "selector 10.0.0.2:53 asm ret #0";
    measure("section", section, count, &t);
    filters(packet);
    groups(&t, 1, false);
    struct contestant judge[] = {{"C: two stores, three loads", section_limit, NULL}, {"enter, judge, leave", judge_ours, NULL}};
    measure("judge: 1 group", judge, 2, &t);
    groups(&t, 1, true);
    measure("judge: 1 group with programs", judge, 2, &t);
    packet[18] = 63;
    groups(&t, 64, true);
    measure("judge: 64 groups with programs", judge, 2, &t);
    struct contestant counted[] = {{"enter, judge, leave", judge_ours, NULL}, {"and its kind is counted", kind_ours, NULL}, {"and its verdict is logged", log_ours, NULL}, {"and counted by member", count_ours, NULL}};
    measure("count: 64 groups with programs", counted, 4, &t);
    struct contestant publish[] = {{"C: 8192 stores", fill_limit, NULL}, {"the next configuration", make_ours, NULL}, {"and its publication", publish_ours, NULL}, {"a control line that changes nothing", line_ours, NULL}};
    measure("publish: 64 groups with programs", publish, 4, &t);
    t.line = "filter 10.0.31.2:53 1 asm ldb [9]; jeq #17,0,1; ret #65535; ret #0";
    t.other = "filter 10.0.31.2:53 1 asm ldb [9]; jeq #6,0,1; ret #65535; ret #0";
    struct contestant change[] = {{"C: 8192 stores", fill_limit, NULL}, {"a control line that changes it", lines_ours, NULL}};
    measure("publish: one of 128 programs", change, 2, &t);
    blocks();
}

int main(int argc, char **argv) {
    int words = 2;
    if (argc == 5 && strcmp(argv[1], "--rounds") == 0) {
        counted_rounds = strtoull(argv[2], NULL, 10);
        counted = argv[3];
        words = 4;
    } else if (argc < 2 || (repetitions = atoi(argv[1])) < 1) {
        fprintf(stderr, "usage: driver REPETITIONS [WORK..] | driver --rounds N CONTESTANT WORK\n");
        return 2;
    }
    chosen = argv + words;
    choices = argc - words;
    programs();
    texts();
    tables();
    return 0;
}
