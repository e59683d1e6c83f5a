/* Counts the packets of a capture of which a filter expression is true: count EXPRESSION <capture.pcap
 * The capture is one of raw IP packets, as `tcpdump -y RAW -w` writes, in this machine's byte order. */
#include <dswitch.h>
#include <stdio.h>
#include <stdlib.h>
#include <string.h>

int main(int count, char **words) {
    if (count != 2) {
        fprintf(stderr, "usage: count EXPRESSION <capture.pcap\n");
        return 2;
    }

    /* The expression becomes a program: where there is room for the longest, there is room for each. */
    static uint64_t program[DSWITCH_MAX_INSTRUCTIONS];
    struct dswitch_answer made = dswitch_compile(words[1], strlen(words[1]), program, DSWITCH_MAX_INSTRUCTIONS);
    if (made.fault == DSWITCH_NO_MEMORY) {
        fprintf(stderr, "count: out of memory\n");
        return 1;
    }
    if (made.fault != DSWITCH_OK) {
        fprintf(stderr, "count: %c%u at %llu\n", DSWITCH_FAULT_LETTER(made.fault), DSWITCH_FAULT_NUMBER(made.fault),
                (unsigned long long)made.number);
        return 1;
    }

    /* The compiler makes no other words than verified ones. Words from elsewhere, from a file say, are verified like this. */
    if (dswitch_verify(program, made.number).fault != DSWITCH_OK)
        return 1;

    /* A capture has a header of 24 bytes, and each packet one of 16: seconds, microseconds, bytes captured, bytes on the wire. */
    uint32_t head[6], record[4];
    static uint8_t packet[DSWITCH_MAX_PACKET];
    if (fread(head, 1, sizeof head, stdin) != sizeof head || head[0] != 0xa1b2c3d4 || head[5] != 101) {
        fprintf(stderr, "count: no capture of raw IP packets\n");
        return 1;
    }
    unsigned long all = 0, accepted = 0;
    while (fread(record, 1, sizeof record, stdin) == sizeof record) {
        if (record[2] > sizeof packet || fread(packet, 1, record[2], stdin) != record[2]) {
            fprintf(stderr, "count: the capture is cut\n");
            return 1;
        }
        all++;
        accepted += dswitch_run(program, made.number, packet, record[2]).value != 0;
    }
    printf("%lu of %lu packets\n", accepted, all);
    return 0;
}
