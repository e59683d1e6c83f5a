/*
 * dswitch.h: classic BPF, proved.
 *
 * A verifier, an interpreter, an assembler, a compiler of filter expressions and a printer. Each call is written in Rattle and
 * proved against a definition of its result. docs/C.md says what is proved, and what a program in C must keep. Link with -ldswitch,
 * or as `pkg-config --libs dswitch` says.
 *
 * An instruction is one 64-bit word: code * 2^48 + jt * 2^40 + jf * 2^32 + k. The codes are those of the kernel's
 * networking/filter.rst, and of <linux/filter.h> and <pcap/bpf.h>. dswitch_word() makes a word of an instruction's four fields.
 *
 * No call keeps a pointer that it was given, writes anywhere but where its comment says, or ends the program. Each needs up to 100 KB
 * of stack, which is measured and not proved. A pointer may be null if its number of elements is 0. An array that a call writes must
 * not overlap with one that it reads. Several threads may call at once, each with its own arrays; words and packets that are only
 * read may be shared. dswitch_assemble(), dswitch_compile() and dswitch_print() take memory from malloc and free it before they
 * return, so do not call them from a signal handler. The other calls take no memory.
 */
#ifndef DSWITCH_H
#define DSWITCH_H

#include <stddef.h>
#include <stdint.h>

#ifdef __cplusplus
extern "C" {
#endif

/* The most instructions that a program has, and the most bytes that a packet has. */
#define DSWITCH_MAX_INSTRUCTIONS 4096
#define DSWITCH_MAX_PACKET 65535

/* Results that are no fault of words or of a text. */
#define DSWITCH_OK 0
#define DSWITCH_NO_MEMORY 1       /* malloc gave no memory */
#define DSWITCH_NO_ROOM 2         /* the caller's buffer is too small */
#define DSWITCH_PACKET_TOO_LONG 3 /* more than DSWITCH_MAX_PACKET bytes */

/*
 * A fault of words or of a text: the letter and the number of its code, as in DSWITCH_FAULT('V', 3). `dswitch explain V3` and
 * docs/COMMANDS.md explain each: V1 to V11 of words, A1 to A5 of assembly, P1 to P5 and F1, F2 of expressions. Values below 256 are
 * those above, and have no letter.
 */
#define DSWITCH_FAULT(letter, number) ((uint32_t)(letter) * 256u + (uint32_t)(number))
#define DSWITCH_FAULT_LETTER(fault) ((char)((fault) / 256u))
#define DSWITCH_FAULT_NUMBER(fault) ((unsigned)((fault) % 256u))

struct dswitch_answer {
    uint32_t fault;  /* DSWITCH_OK, or why there is no result */
    uint32_t charge; /* the program's charge, of the 8192 that a switch's configuration may have: its number of words or, if it was compiled, the
                        expression's size; also at DSWITCH_NO_ROOM; 0 at any other fault */
    uint64_t number; /* words or bytes of the result, also at DSWITCH_NO_ROOM; the line, place or pc of a fault; otherwise 0 */
};

struct dswitch_outcome {
    uint32_t value; /* the value that the program returned: for a filter, how many bytes it keeps */
    uint32_t steps; /* how many instructions it executed, including the last one */
};

/*
 * Tests whether words are a program, so that no run of it gets stuck on any packet. Use it in place of libpcap's bpf_validate(),
 * which requires less. Returns DSWITCH_OK with the number of words, or V1 to V11 with the place of the first instruction at fault,
 * counted from 0. V1, V2 and V10 have no place; their number is 0.
 */
struct dswitch_answer dswitch_verify(const uint64_t *words, size_t count);

/*
 * Runs a program on a packet, in place of libpcap's bpf_filter(). A load past the packet's end ends the run with the value 0.
 *
 * You must ensure two things, which nothing checks: the words are a program (dswitch_verify() returned DSWITCH_OK, or
 * dswitch_compile() or dswitch_assemble() made them), and the packet has at most DSWITCH_MAX_PACKET bytes. Otherwise the behavior is
 * undefined.
 */
struct dswitch_outcome dswitch_run(const uint64_t *words, size_t count, const uint8_t *packet, size_t length);

/*
 * The same for words and packets that you do not trust. Returns what dswitch_verify() returns, or DSWITCH_PACKET_TOO_LONG. *outcome
 * is written only at DSWITCH_OK. It verifies at each call; to run a program often, verify it once and use dswitch_run().
 */
struct dswitch_answer dswitch_run_checked(const uint64_t *words, size_t count, const uint8_t *packet, size_t length,
                                          struct dswitch_outcome *outcome);

/*
 * Assembles a text (docs/MACHINE.md) to a program, written to words[0] and the words after it. Returns DSWITCH_OK with the number of
 * words; A1 to A5 with the line, counted from 1; V1 to V11 with the place of an instruction; DSWITCH_NO_ROOM with the number of words
 * that are needed; or DSWITCH_NO_MEMORY. Words are written only at DSWITCH_OK. DSWITCH_MAX_INSTRUCTIONS words are always enough.
 */
struct dswitch_answer dswitch_assemble(const char *text, size_t length, uint64_t *words, size_t room);

/*
 * Compiles a filter expression, of the IPv4 subset of pcap-filter(7) in docs/EXPRESSIONS.md, to a program that ends with 65535 on the
 * packets for which the expression is true, and with 0 on all others. Use it in place of libpcap's pcap_compile(); a packet begins
 * with its IPv4 header. Returns DSWITCH_OK, DSWITCH_NO_ROOM or DSWITCH_NO_MEMORY as dswitch_assemble() does; P1 to P5 with the byte of
 * the text, counted from 0; or F1 or F2.
 */
struct dswitch_answer dswitch_compile(const char *text, size_t length, uint64_t *words, size_t room);

/*
 * Prints a program as assembly to text[0] and the bytes after it, without a byte 0 at its end; dswitch_assemble() reads it back as
 * the same words. Returns DSWITCH_OK with the number of bytes; V1 to V11; DSWITCH_NO_ROOM with the bytes that are needed; or
 * DSWITCH_NO_MEMORY.
 */
struct dswitch_answer dswitch_print(const uint64_t *words, size_t count, char *text, size_t room);

/* The word of an instruction, and the fields of a word. */
static inline uint64_t dswitch_word(uint16_t code, uint8_t jt, uint8_t jf, uint32_t k) {
    return (uint64_t)code << 48 | (uint64_t)jt << 40 | (uint64_t)jf << 32 | k;
}
static inline uint16_t dswitch_code(uint64_t word) { return (uint16_t)(word >> 48); }
static inline uint8_t dswitch_jt(uint64_t word) { return (uint8_t)(word >> 40); }
static inline uint8_t dswitch_jf(uint64_t word) { return (uint8_t)(word >> 32); }
static inline uint32_t dswitch_k(uint64_t word) { return (uint32_t)word; }

#ifdef __cplusplus
}
#endif

#endif
