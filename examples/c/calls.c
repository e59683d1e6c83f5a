/* Calls each function of dswitch.h with good, bad, empty and largest input, and compares what it answers. The values are worked by
 * hand from docs/MACHINE.md and docs/EXPRESSIONS.md. Prints each difference, and at the end `N passed, M failed`. */
#include <dswitch.h>
#include <stdio.h>
#include <stdlib.h>
#include <string.h>

static unsigned passed, failed;

static void check(const char *name, int holds) {
    if (holds) {
        passed++;
    } else {
        failed++;
        printf("%s: does not hold\n", name);
    }
}

static void answers(const char *name, struct dswitch_answer found, uint32_t fault, uint32_t charge, uint64_t number) {
    int holds = found.fault == fault && found.charge == charge && found.number == number;
    if (!holds)
        printf("%s: fault %c%u (%u), charge %u, number %llu\n", name, DSWITCH_FAULT_LETTER(found.fault), DSWITCH_FAULT_NUMBER(found.fault),
               (unsigned)found.fault, (unsigned)found.charge, (unsigned long long)found.number);
    check(name, holds);
}

/* 29 bytes of UDP over IPv4 from 10.0.0.1:5000 to 10.0.0.2:53, with the payload `a`. */
static const uint8_t PACKET[29] = {0x45, 0, 0, 0x1d, 0, 0, 0, 0, 0x40, 0x11, 0, 0, 10, 0, 0, 1, 10, 0, 0, 2, 0x13, 0x88, 0, 53, 0, 9, 0, 0, 0x61};

/* ldb [9]; jeq #17,0,1; ret #65535; ret #0 */
static const uint64_t IS_UDP[4] = {0x0030000000000009, 0x0015000100000011, 0x000600000000ffff, 0x0006000000000000};

static uint64_t room[DSWITCH_MAX_INSTRUCTIONS + 1];

static void verifying(void) {
    answers("four words", dswitch_verify(IS_UDP, 4), DSWITCH_OK, 4, 4);
    answers("null", dswitch_verify(NULL, 0), DSWITCH_FAULT('V', 1), 0, 0);
    const uint64_t none = 0x0008000000000000, stray = 0x0087000000000001, ancillary = 0x0020000080000000, ret = 0x0006000000000000;
    const uint64_t unknown[2] = {none, ret}, unused[2] = {stray, ret}, far_load[2] = {ancillary, ret};
    answers("a code of no instruction", dswitch_verify(unknown, 2), DSWITCH_FAULT('V', 3), 0, 0);
    answers("a field that is not used", dswitch_verify(unused, 2), DSWITCH_FAULT('V', 4), 0, 0);
    answers("an ancillary load", dswitch_verify(far_load, 2), DSWITCH_FAULT('V', 9), 0, 0);
    answers("no return", dswitch_verify(IS_UDP, 2), DSWITCH_FAULT('V', 8), 0, 1);
    const uint64_t one = 0x0000000000000001;
    answers("no return at the end", dswitch_verify(&one, 1), DSWITCH_FAULT('V', 10), 0, 0);
    /* jeq #0,0,1; st M[0]; ld M[0]; ret a */
    const uint64_t cells[4] = {0x0015000100000000, 0x0002000000000000, 0x0060000000000000, 0x0016000000000000};
    answers("a cell that one path does not store", dswitch_verify(cells, 4), DSWITCH_FAULT('V', 11), 0, 2);
    for (size_t i = 0; i <= DSWITCH_MAX_INSTRUCTIONS; i++)
        room[i] = ret;
    answers("the longest program", dswitch_verify(room, 4096), DSWITCH_OK, 4096, 4096);
    answers("one word more", dswitch_verify(room, 4097), DSWITCH_FAULT('V', 2), 0, 0);
}

static void running(void) {
    struct dswitch_outcome outcome = dswitch_run(IS_UDP, 4, PACKET, sizeof PACKET);
    check("value of a UDP packet", outcome.value == 65535 && outcome.steps == 3);
    outcome = dswitch_run(IS_UDP, 4, NULL, 0);
    check("value of no packet", outcome.value == 0 && outcome.steps == 1);
    outcome = (struct dswitch_outcome){7, 7};
    answers("a checked run", dswitch_run_checked(IS_UDP, 4, PACKET, sizeof PACKET, &outcome), DSWITCH_OK, 4, 4);
    check("its outcome", outcome.value == 65535 && outcome.steps == 3);
    outcome = (struct dswitch_outcome){7, 8};
    answers("a checked run of no program", dswitch_run_checked(IS_UDP, 1, PACKET, sizeof PACKET, &outcome), DSWITCH_FAULT('V', 10), 0, 0);
    answers("of no words", dswitch_run_checked(NULL, 0, NULL, 0, &outcome), DSWITCH_FAULT('V', 1), 0, 0);
    check("the outcome is as it was", outcome.value == 7 && outcome.steps == 8);
    uint8_t *packet = calloc(65536, 1);
    if (packet == NULL)
        exit(70);
    packet[9] = 17;
    answers("the longest packet", dswitch_run_checked(IS_UDP, 4, packet, 65535, &outcome), DSWITCH_OK, 4, 4);
    check("its outcome", outcome.value == 65535 && outcome.steps == 3);
    answers("one byte more", dswitch_run_checked(IS_UDP, 4, packet, 65536, &outcome), DSWITCH_PACKET_TOO_LONG, 0, 0);
    free(packet);
    /* 4095 times ld #1, and ret a */
    for (size_t i = 0; i < 4095; i++)
        room[i] = 0x0000000000000001;
    room[4095] = 0x0016000000000000;
    outcome = dswitch_run(room, 4096, PACKET, sizeof PACKET);
    check("the longest program runs once through", outcome.value == 1 && outcome.steps == 4096);
}

static struct dswitch_answer assembled(const char *text, uint64_t *words, size_t count) {
    return dswitch_assemble(text, strlen(text), words, count);
}

static void assembling(void) {
    const char *text = "ldb [9]; jeq #17,0,1; ret #65535; ret #0";
    memset(room, 0xff, sizeof room);
    answers("assembly", assembled(text, room, 5), DSWITCH_OK, 4, 4);
    check("its words", memcmp(room, IS_UDP, sizeof IS_UDP) == 0 && room[4] == UINT64_MAX);
    memset(room, 0xff, sizeof room);
    answers("three words of room", assembled(text, room, 3), DSWITCH_NO_ROOM, 4, 4);
    answers("no room", assembled(text, NULL, 0), DSWITCH_NO_ROOM, 4, 4);
    answers("no text", dswitch_assemble(NULL, 0, room, 4), DSWITCH_FAULT('V', 1), 0, 0);
    answers("no instruction", assembled("ret #0\nfoo", room, 4), DSWITCH_FAULT('A', 1), 0, 2);
    answers("no label", assembled("ja x; ret #0", room, 4), DSWITCH_FAULT('A', 2), 0, 1);
    answers("a label twice", assembled("l: ret #0; l: ret #0", room, 4), DSWITCH_FAULT('A', 3), 0, 2);
    answers("backwards", assembled("top: ja top; ret #0", room, 4), DSWITCH_FAULT('A', 4), 0, 1);
    answers("too far", assembled("jeq #1,256,0; ret #0", room, 4), DSWITCH_FAULT('A', 5), 0, 1);
    answers("outside", assembled("ja +1; ret #1", room, 4), DSWITCH_FAULT('V', 8), 0, 0);
    check("nothing is written", room[0] == UINT64_MAX && room[3] == UINT64_MAX);
}

static struct dswitch_answer compiled(const char *text, size_t count) {
    return dswitch_compile(text, strlen(text), room, count);
}

/* So many port ranges behind the text, joined by `or` as a balanced tree. */
static void ranges(char *text, int count) {
    if (count == 1) {
        strcat(text, "portrange 1-2");
        return;
    }
    strcat(text, "(");
    ranges(text, count / 2);
    strcat(text, ")or(");
    ranges(text, count - count / 2);
    strcat(text, ")");
}

static uint32_t value_on_packet(const char *text) {
    struct dswitch_answer made = compiled(text, DSWITCH_MAX_INSTRUCTIONS);
    check(text, made.fault == DSWITCH_OK && dswitch_verify(room, made.number).fault == DSWITCH_OK);
    return made.fault == DSWITCH_OK ? dswitch_run(room, made.number, PACKET, sizeof PACKET).value : 1;
}

static void compiling(void) {
    check("true of the packet", value_on_packet("udp and dst port 53 and net 10.0.0.0/8") == 65535);
    check("false of it", value_on_packet("tcp or less 28") == 0);
    check("a missing byte", value_on_packet("not udp[100] = 1") == 0);
    memset(room, 0xff, sizeof room);
    struct dswitch_answer ip = compiled("ip", 0);
    check("no room", ip.fault == DSWITCH_NO_ROOM && ip.charge == 7 && ip.number >= 1 && ip.number <= 7 && room[0] == UINT64_MAX);
    answers("so much room", compiled("ip", ip.number), DSWITCH_OK, 7, ip.number);
    check("no word more", room[ip.number] == UINT64_MAX);
    answers("no text", dswitch_compile(NULL, 0, room, 1), DSWITCH_FAULT('P', 1), 0, 0);
    answers("a beginning", compiled("udp and", 99), DSWITCH_FAULT('P', 1), 0, 7);
    answers("a port", compiled("port 65536", 99), DSWITCH_FAULT('P', 2), 0, 5);
    answers("an address", compiled("host 10.0.0.256", 99), DSWITCH_FAULT('P', 3), 0, 5);
    answers("a prefix", compiled("net 10.0.0.1/8", 99), DSWITCH_FAULT('P', 4), 0, 13);
    char deep[65];
    memset(deep, '(', sizeof deep);
    answers("too deep", dswitch_compile(deep, sizeof deep, room, 99), DSWITCH_FAULT('P', 5), 0, 64);
    /* Seventeen sums, one in the other. */
    answers("too many cells", compiled("1+(1+(1+(1+(1+(1+(1+(1+(1+(1+(1+(1+(1+(1+(1+(1+(1+1)))))))))))))))) = 18", 4096), DSWITCH_FAULT('F', 1), 0, 0);
    /* 121 ranges count 34 each, and 2 for the ends: 4116. In a balanced tree no part lies deeper than 64. */
    char *text = malloc(121 * 20);
    if (text == NULL)
        exit(70);
    text[0] = 0;
    ranges(text, 120);
    struct dswitch_answer longest = compiled(text, 4096);
    check("120 ranges", longest.fault == DSWITCH_OK && longest.charge == 4082 && longest.number <= 4082);
    text[0] = 0;
    ranges(text, 121);
    answers("too long", compiled(text, 4096), DSWITCH_FAULT('F', 2), 0, 0);
    text[0] = 0;
    for (int i = 0; i < 66; i++)
        strcat(text, i == 0 ? "ip" : " or ip");
    answers("too deep a tree", compiled(text, 4096), DSWITCH_FAULT('P', 5), 0, strlen(text));
    free(text);
}

static void printing(void) {
    const char *wanted = "ldb [9]\njeq #17,0,1\nret #65535\nret #0\n";
    char text[64];
    memset(text, '~', sizeof text);
    answers("printed", dswitch_print(IS_UDP, 4, text, sizeof text), DSWITCH_OK, 4, strlen(wanted));
    check("its text", memcmp(text, wanted, strlen(wanted)) == 0 && text[strlen(wanted)] == '~');
    memset(text, '~', sizeof text);
    answers("one byte too few", dswitch_print(IS_UDP, 4, text, strlen(wanted) - 1), DSWITCH_NO_ROOM, 4, strlen(wanted));
    answers("no room", dswitch_print(IS_UDP, 4, NULL, 0), DSWITCH_NO_ROOM, 4, strlen(wanted));
    answers("no program", dswitch_print(IS_UDP, 1, text, sizeof text), DSWITCH_FAULT('V', 10), 0, 0);
    answers("no words", dswitch_print(NULL, 0, text, sizeof text), DSWITCH_FAULT('V', 1), 0, 0);
    check("nothing is written", text[0] == '~');
    struct dswitch_answer made = compiled("port 53 or not tcp", DSWITCH_MAX_INSTRUCTIONS);
    static uint64_t again[DSWITCH_MAX_INSTRUCTIONS];
    static char long_text[65536];
    struct dswitch_answer printed = dswitch_print(room, made.number, long_text, sizeof long_text);
    answers("read back", dswitch_assemble(long_text, printed.number, again, DSWITCH_MAX_INSTRUCTIONS), DSWITCH_OK, (uint32_t)made.number, made.number);
    check("the same words", memcmp(room, again, made.number * sizeof room[0]) == 0);
}

static void words(void) {
    uint64_t word = dswitch_word(0x15, 1, 2, 0xffffffff);
    check("fields of a word", word == 0x00150102ffffffff && dswitch_code(word) == 0x15 && dswitch_jt(word) == 1 && dswitch_jf(word) == 2
                                  && dswitch_k(word) == 0xffffffff);
    check("a fault's letter and number", DSWITCH_FAULT_LETTER(DSWITCH_FAULT('V', 11)) == 'V' && DSWITCH_FAULT_NUMBER(DSWITCH_FAULT('V', 11)) == 11);
}

int main(void) {
    words();
    verifying();
    running();
    assembling();
    compiling();
    printing();
    printf("%u passed, %u failed\n", passed, failed);
    return failed != 0;
}
