/* What a run came to: which opcode at which address, which port from where, and where each byte was written from. */
#include <stdlib.h>
#include <string.h>
#include "uxn.h"

uint16_t instruction_at;
static FILE *trace;
static uint8_t *seen[3];

static void mark(int map, char name, uint16_t address, uint8_t byte)
{
    uint32_t bit = (uint32_t)address << 8 | byte;
    if (!trace || seen[map][bit >> 3] & 1 << (bit & 7))
        return;
    seen[map][bit >> 3] |= (uint8_t)(1 << (bit & 7));
    fprintf(trace, "%c %04x %02x\n", name, address, byte);
}

void trace_instruction(uint16_t address, uint8_t opcode)
{
    if (trace)
        mark(0, 'x', address, opcode);
}

void trace_read(uint8_t port)
{
    mark(1, 'r', instruction_at, port);
}

void trace_write(uint8_t port)
{
    mark(2, 'w', instruction_at, port);
}

/* The address of the writing instruction, and the shorts on the return stack from its bottom on, calls among them. */
void trace_output(void)
{
    int at;
    if (!trace)
        return;
    fprintf(trace, "o %04x", instruction_at);
    for (at = 0; at + 1 < returns.pointer && at < 12; at++)
        fprintf(trace, " %02x%02x", returns.bytes[at], returns.bytes[at + 1]);
    fprintf(trace, "\n");
}

void open_trace(const char *path)
{
    int map;
    trace = fopen(path, "w");
    for (map = 0; map < 3; map++)
        seen[map] = calloc(0x200000, 1);
    if (!trace || !seen[0] || !seen[1] || !seen[2]) {
        fprintf(stderr, "second: the trace %s cannot be made\n", path);
        exit(2);
    }
}

void close_trace(void)
{
    if (trace)
        fclose(trace);
}
