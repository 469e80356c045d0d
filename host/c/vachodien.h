/*
 * vachodien.h: the proved engine from C.
 *
 * Link with target/staticlib/libvachodien.a, which `./build` writes (x86-64, System V calls):
 *
 *     cc -I host/c program.c target/staticlib/libvachodien.a
 *
 * For every function here:
 *
 * - A buffer is a pointer and a length in bytes. A length may be 0; the pointer must then still not be null.
 * - Nothing past a length is read or written. What is only read is declared const and is not written.
 * - A buffer that is written must not overlap one that is read.
 * - Nothing is allocated, nothing is kept from one call to the next, no file or clock is touched. Calls may run at the same
 *   time in several threads, on different buffers to write.
 * - There is no other way out than the number returned: no signal, no abort, no longjmp.
 * - Any bytes may be handed in. A sheet need not be checked before it is run.
 * - Stack: see VACHODIEN_STACK below.
 *
 * The number returned is an answer times 65,536 plus a number below 65,536:
 *
 *     answer 0    done; what the low number is, each function says
 *     answer 12   malformed; the low number is the place of the first fault
 *     answer 13   the buffer to write is too short; the low number is 0
 *
 * 12 comes before 13, and where one of them is answered no byte is written.
 */
#ifndef VACHODIEN_H
#define VACHODIEN_H

#include <stddef.h>
#include <stdint.h>

#ifdef __cplusplus
extern "C" {
#endif

/* The parts of a number returned. */
#define VACHODIEN_ANSWER(number) ((number) >> 16)
#define VACHODIEN_LOW(number) ((number) & 0xFFFFu)

#define VACHODIEN_DONE 0u
#define VACHODIEN_MALFORMED 12u
#define VACHODIEN_TOO_SHORT 13u

/* A good sheet has at most so many bytes: 3 + 4,096 * (3 + 4). */
#define VACHODIEN_LONGEST_SHEET 28675u

/* A report has at most so many bytes, 4 + 3 * 4,096 + 2 * 1,024: a buffer of this length is never too short. */
#define VACHODIEN_LONGEST_REPORT 14340u

/*
 * Bytes of stack that are enough for a thread that makes a call. Measured: a call of vachodien_report, the largest, touches 56,248
 * bytes, on an empty sheet as on the longest, and the others a few hundred; the rest is for the thread itself, and room. The tests
 * run the largest sheets of every kind on a thread of this size, and fail where a call touches 72 KB; host/c/lend.c measures it.
 */
#define VACHODIEN_STACK 163840u

/*
 * Runs a sheet on a fresh token and writes its report: n and m, two bytes each and big-endian as all numbers; n records of three
 * bytes (answer, two-byte value), one for each command; then the numbers of the m keys that the caller can work out, two bytes
 * each, ascending. Low number for 0: the report's length, 4 + 3 n + 2 m. Bytes of the buffer past it stay as they were.
 *
 * The answer in a record: 0, the command is done, and its value is the number of the handle or term that the token answers. Any other is
 * a refusal, with value 0: 2 the flag byte holds 128; 3 a handle named is not live; 4 a term named does not exist; 5 the policy does
 * not grant the flag byte; 6 a flag needed is missing; 7 a term named is not held; 8 the wrong kind of term; 9 STP+ encrypts no key;
 * 10 no handle is free; 11 no room for a new term.
 */
uint32_t vachodien_report(const uint8_t *sheet, size_t sheet_length, uint8_t *report, size_t report_length);

/*
 * Checks a sheet and runs nothing. Low number for 0: how many commands it has. Places of faults: 0 for under 3 bytes, a policy
 * above 2, more than 4,096 commands, or a table not wholly inside; i (from 1) for the entry i; one more than the count for
 * bytes after the last body.
 */
uint32_t vachodien_check(const uint8_t *sheet, size_t sheet_length);

/*
 * A command to be written: its number, the length of its body, and the body, of which the first so many bytes count. The
 * record is six bytes without gaps, so that an array of them can be handed over as bytes.
 */
typedef struct {
    uint8_t number;
    uint8_t body_length;
    uint8_t body[4];
} vachodien_command;

/*
 * Writes the sheet of the first `count` commands under a policy (0 plain, 1 STP, 2 STP+). `commands_length` is in bytes, six for
 * each command. Low number for 0: the sheet's length. Bytes of the buffer past it stay as they were. Places for 12: 0 for a
 * policy above 2 or more than 4,096 commands; i (from 1) if command i is not wholly inside, its number is unknown, or its body
 * length is not that command's.
 */
uint32_t vachodien_write(uint8_t policy, uint16_t count, const uint8_t *commands, size_t commands_length, uint8_t *sheet,
                         size_t sheet_length);

#ifdef __cplusplus
}
#endif

#endif
