/* A first trace: CLC and ADC #01 at 8000, in native mode with 8-bit registers. Prints the trace of their four cycles.
 *
 *     library/build.sh
 *     cc examples/c/first_trace.c -Iinclude target/library/libglavorint.a -o first_trace
 *     ./first_trace
 */
#include <stdio.h>

#include "glavorint.h"

static uint8_t memory[GLAVORINT_MEMORY];

int main(void)
{
    uint8_t record[GLAVORINT_RECORD] = {0};
    uint8_t text[GLAVORINT_ROOM(0, 4)];
    uint64_t end;

    if (glavorint_edition() != GLAVORINT_EDITION) {
        fputs("the library is of another edition than its header\n", stderr);
        return 2;
    }
    memory[0x8000] = 0x18; /* CLC */
    memory[0x8001] = 0x69; /* ADC #01 */
    memory[0x8002] = 0x01;
    record[GLAVORINT_AT_EDITION] = GLAVORINT_EDITION;
    record[GLAVORINT_AT_S] = 0xFF; /* S 01FF, low byte first */
    record[GLAVORINT_AT_S + 1] = 0x01;
    record[GLAVORINT_AT_PC + 1] = 0x80; /* PC 8000 */
    record[GLAVORINT_AT_P] = 0x30; /* M and X: 8-bit registers */

    end = glavorint_trace(record, sizeof record, memory, sizeof memory, text, sizeof text, 0, 4);
    if (GLAVORINT_TRACE_REFUSAL(end) != 0) {
        fprintf(stderr, "refused with %d after %u cycles\n", GLAVORINT_TRACE_REFUSAL(end), (unsigned)GLAVORINT_TRACE_CYCLES(end));
        return 1;
    }
    fwrite(text, 1, GLAVORINT_TRACE_TEXT(end), stdout);
    return 0;
}
