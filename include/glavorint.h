/* Glavorint: a 65C816 whose every bus cycle is proved equal to a definition written from the chip's data sheet.
 *
 * The functions of target/library/libglavorint.a, which library/build.sh makes, for x86-64. They take numbers and lent bytes, keep nothing between
 * calls, allocate nothing and use nothing of the C library, so any number of machines may run side by side.
 *
 * What a caller has to keep to, since no proof reaches across the call: every pointer is to as many bytes as the length beside it says, and
 * isn't null, be the length 0; the pieces lent to one call don't overlap, and nobody else uses them until it returns.
 *
 * A packed record, GLAVORINT_RECORD bytes; words stand with their low byte first:
 *
 *      0  edition, 1      1  whether an opcode is held, 0 or 1      2  that opcode      3  its next cycle
 *      4  A     6  X     8  Y    10  S    12  D    14  PC
 *     16  PBR  17  DBR  18  P: N V M X D I Z C from bit 7 down, in emulation too, where M and X are 1      19  E, 0 or 1
 *     20  address scratch    22  data scratch    24  bank scratch    25 to 31  reserved, 0
 *
 * A record is well formed if: in emulation M and X are both set; with X set the high bytes of X and Y are 0; and where no opcode is held, or
 * one of MVN and MVP (54, 44) with its next cycle 0, the scratch words are 0, and in emulation the high byte of S is 1. Every record that a
 * function gives after an accepted cycle is well formed.
 *
 * A session, GLAVORINT_SESSION bytes: a packed record, then the count of its completed cycles in 8 bytes, the low one first. At its top the
 * count stands still.
 *
 * Refusals, which change nothing of a cycle's record and memory:
 *
 *      1  memory that isn't GLAVORINT_MEMORY bytes       2  more than GLAVORINT_BUDGET cycles, those before counted
 *      3  too little room for the text                   4  a record that isn't a packed one, or isn't well formed
 *      5  an opcode that isn't listed                    6  a cycle that the held opcode hasn't
 *      7  a request outside bank 0, in a run over memory
 *
 * Listed opcodes: ORA AND EOR ADC LDA CMP SBC # d a, BIT # d a, LDX LDY CPX CPY # d a, STA STX STY STZ d a, ASL ROL LSR ROR INC DEC on A, INX
 * INY DEX DEY, TAX TAY TXA TYA TXY TYX TSX TXS TCS TSC TCD TDC, XBA XCE NOP WDM, CLC SEC CLI SEI CLD SED CLV REP SEP, PHA PHX PHY PHP PHB PHD
 * PHK PLA PLX PLY PLP PLB PLD PEA PEI PER, the eight branches, BRA BRL, JMP a al (a) [a] (a,x), JSR a (a,x), JSL, RTS, RTL, MVN, MVP.
 *
 * A trace's text, fields parted by one tab and lines ended by one LF: the header `bus`, `1`; then for each cycle its number from 1 on, the
 * kind O, P, D or I (opcode, program, data, invalid), R or W, six upper-case hex digits of the address, two of the byte.
 */
#ifndef GLAVORINT_H
#define GLAVORINT_H

#include <stddef.h>
#include <stdint.h>

#define GLAVORINT_EDITION 1
#define GLAVORINT_RECORD 32
#define GLAVORINT_SESSION 40
#define GLAVORINT_MEMORY 65536
#define GLAVORINT_BUDGET 1000000

/* Where the fields of a packed record stand; words are two bytes. */
#define GLAVORINT_AT_EDITION 0
#define GLAVORINT_AT_HELD 1
#define GLAVORINT_AT_OPCODE 2
#define GLAVORINT_AT_CYCLE 3
#define GLAVORINT_AT_A 4
#define GLAVORINT_AT_X 6
#define GLAVORINT_AT_Y 8
#define GLAVORINT_AT_S 10
#define GLAVORINT_AT_D 12
#define GLAVORINT_AT_PC 14
#define GLAVORINT_AT_PBR 16
#define GLAVORINT_AT_DBR 17
#define GLAVORINT_AT_P 18
#define GLAVORINT_AT_E 19
#define GLAVORINT_AT_ADDRESS 20
#define GLAVORINT_AT_DATA 22
#define GLAVORINT_AT_BANK 24

/* The kinds of a request. */
#define GLAVORINT_OPCODE 0
#define GLAVORINT_PROGRAM 1
#define GLAVORINT_DATA 2
#define GLAVORINT_INVALID 3

/* The refusals. */
#define GLAVORINT_REFUSED_MEMORY 1
#define GLAVORINT_REFUSED_BUDGET 2
#define GLAVORINT_REFUSED_ROOM 3
#define GLAVORINT_REFUSED_RECORD 4
#define GLAVORINT_REFUSED_OPCODE 5
#define GLAVORINT_REFUSED_CYCLE 6
#define GLAVORINT_REFUSED_BANK 7

/* The room that a trace of so many cycles must find: a header of 6 bytes where no cycle was done before, and 22 bytes for each cycle. */
#define GLAVORINT_ROOM(before, budget) (((before) == 0 ? (size_t)6 : (size_t)0) + (size_t)22 * (size_t)(budget))

#ifdef __cplusplus
extern "C" {
#endif

/* The edition of the bytes and bits below: GLAVORINT_EDITION. */
uint32_t glavorint_edition(void);

/* What a record asks of the bus.
 * Bits 0-23 address, 24-31 the byte of a write (0 for a read), 32-39 kind, 40 whether it is a write; 48-55 the refusal, or 0 for none.
 * With a refusal all other bits are 0. Kinds: 0 opcode, 1 program, 2 data, 3 invalid. */
uint64_t glavorint_request(const uint8_t *record, size_t record_length);

/* The record after the answered byte, written over the one that was lent; after a write the byte makes no difference.
 * The refusal, or 0. */
uint8_t glavorint_answer(uint8_t *record, size_t record_length, uint8_t byte);

/* At most `budget` cycles over a memory that stands for bank 0. The record and the memory are those that the completed cycles come to, also
 * where a later cycle was refused. Bits 0-31 completed cycles, 32-39 the refusal, or 0.
 * 1 and 2 come before a record's 4; bytes that aren't a packed record are refused whatever the budget, one that isn't well formed only where
 * the budget isn't 0. */
uint64_t glavorint_run(uint8_t *record, size_t record_length, uint8_t *memory, size_t memory_length, uint32_t budget);

/* The same with a line of text for each completed cycle. A trace may be made in pieces: `before` says how many cycles were done in the pieces
 * before this one, its lines are numbered on from there, and the header is written where none were. Bits 0-23 completed cycles, 24-55 bytes of
 * text, 56-63 the refusal, or 0. 1, 2 and 3 come before a record's 4; bytes that aren't a packed record leave the text as it was, a record that
 * isn't well formed is refused after the header. What lies behind the written text stays as it was. */
uint64_t glavorint_trace(uint8_t *record, size_t record_length, uint8_t *memory, size_t memory_length, uint8_t *text, size_t text_length,
                         uint32_t before, uint32_t budget);

/* The same for a session: what it asks, its answered byte, and a cycle of it over a memory. A refused cycle isn't counted. */
uint64_t glavorint_session_request(const uint8_t *session, size_t session_length);
uint8_t glavorint_session_answer(uint8_t *session, size_t session_length, uint8_t byte);
uint8_t glavorint_session_cycle(uint8_t *session, size_t session_length, uint8_t *memory, size_t memory_length);

/* At most `count` such cycles one after another, up to the first that is refused; any count will do. Bits 0-31 completed cycles, 32-39 the
 * refusal, or 0. Session and memory are those that the completed cycles come to. A memory of another length is refused with 1, and bytes that
 * aren't a session with 4, whatever the count; a record that isn't well formed only where the count isn't 0. */
uint64_t glavorint_session_cycles(uint8_t *session, size_t session_length, uint8_t *memory, size_t memory_length, uint32_t count);

#ifdef __cplusplus
}
#endif

/* The fields of the numbers above; RUN's are those of glavorint_session_cycles too. */
#define GLAVORINT_REQUEST_ADDRESS(n) ((uint32_t)((n) & 0xFFFFFF))
#define GLAVORINT_REQUEST_BYTE(n) ((uint8_t)((n) >> 24))
#define GLAVORINT_REQUEST_KIND(n) ((uint8_t)((n) >> 32))
#define GLAVORINT_REQUEST_WRITE(n) ((uint8_t)((n) >> 40 & 1))
#define GLAVORINT_REQUEST_REFUSAL(n) ((uint8_t)((n) >> 48))
#define GLAVORINT_RUN_CYCLES(n) ((uint32_t)(n))
#define GLAVORINT_RUN_REFUSAL(n) ((uint8_t)((n) >> 32))
#define GLAVORINT_TRACE_CYCLES(n) ((uint32_t)((n) & 0xFFFFFF))
#define GLAVORINT_TRACE_TEXT(n) ((uint32_t)((n) >> 24))
#define GLAVORINT_TRACE_REFUSAL(n) ((uint8_t)((n) >> 56))

#endif
