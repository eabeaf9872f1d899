/* The ports of the computer: what each reads, and what a write does. */
#define _DEFAULT_SOURCE
#include <stdlib.h>
#include <time.h>
#include "uxn.h"

uint8_t ports[256];
uint32_t frames_begun;
int has_clock;
static int64_t clock_seconds;
static int clock_minutes;

uint16_t port_short(uint8_t port)
{
    return (uint16_t)(ports[port] << 8 | ports[(uint8_t)(port + 1)]);
}

void store_port_short(uint8_t port, uint16_t value)
{
    ports[port] = (uint8_t)(value >> 8);
    ports[(uint8_t)(port + 1)] = (uint8_t)value;
}

void set_clock(int64_t seconds, int minutes)
{
    has_clock = 1;
    clock_seconds = seconds;
    clock_minutes = minutes;
}

static uint8_t read_clock(uint8_t port)
{
    time_t now = has_clock ? (time_t)(clock_seconds + frames_begun / 60 + clock_minutes * 60) : time(NULL);
    struct tm fields = has_clock ? *gmtime(&now) : *localtime(&now);
    int year = fields.tm_year + 1900;
    switch (port) {
    case 0xc0: return (uint8_t)(year >> 8);
    case 0xc1: return (uint8_t)year;
    case 0xc2: return (uint8_t)fields.tm_mon;
    case 0xc3: return (uint8_t)fields.tm_mday;
    case 0xc4: return (uint8_t)fields.tm_hour;
    case 0xc5: return (uint8_t)fields.tm_min;
    case 0xc6: return (uint8_t)fields.tm_sec;
    case 0xc7: return (uint8_t)fields.tm_wday;
    case 0xc8: return (uint8_t)(fields.tm_yday >> 8);
    case 0xc9: return (uint8_t)fields.tm_yday;
    case 0xca: return (uint8_t)(fields.tm_isdst > 0);
    }
    return ports[port];
}

static uint8_t read_voice(uint8_t port)
{
    int voice = (port >> 4) - 3;
    switch (port & 15) {
    case 2: return (uint8_t)(note_position(voice) >> 8);
    case 3: return (uint8_t)note_position(voice);
    case 4: return note_output(voice);
    }
    return ports[port];
}

uint8_t read_port(uint8_t port)
{
    trace_read(port);
    switch (port) {
    case 0x04: return working.pointer;
    case 0x05: return returns.pointer;
    case 0x22: return (uint8_t)(screen_width() >> 8);
    case 0x23: return (uint8_t)screen_width();
    case 0x24: return (uint8_t)(screen_height() >> 8);
    case 0x25: return (uint8_t)screen_height();
    }
    if (port >= 0x30 && port < 0x70)
        return read_voice(port);
    return port >= 0xc0 && port <= 0xca ? read_clock(port) : ports[port];
}

static uint32_t record_byte(uint16_t record, int at)
{
    return ram[(uint16_t)(record + at)];
}

static uint16_t record_short(uint16_t record, int at)
{
    return (uint16_t)(record_byte(record, at) << 8 | record_byte(record, at + 1));
}

static uint8_t *cell(uint16_t bank, uint16_t address)
{
    return &ram[(uint32_t)bank << 16 | address];
}

/* Fills a range, or copies one upwards or downwards, as the record at the address says. */
static void expand(uint16_t record)
{
    uint8_t operation = ram[record];
    uint16_t length = record_short(record, 1), bank = record_short(record, 3), from = record_short(record, 5);
    uint16_t to_bank = record_short(record, 7), to = record_short(record, 9);
    uint8_t value = (uint8_t)record_byte(record, 7);
    uint32_t i;
    if (bank >= BANKS || operation > 2 || (operation && to_bank >= BANKS))
        return;
    for (i = 0; i < length; i++) {
        uint16_t at = (uint16_t)(operation == 2 ? length - 1 - i : i);
        if (operation == 0)
            *cell(bank, from + at) = value;
        else
            *cell(to_bank, to + at) = *cell(bank, from + at);
    }
}

static void put_stack(const char *name, const struct stack *stack)
{
    int depth;
    fprintf(stderr, "%s", name);
    for (depth = 8; depth > 0; depth--)
        fprintf(stderr, " %02x", stack->bytes[(uint8_t)(stack->pointer - depth)]);
    fprintf(stderr, "\n");
}

static void write_system(uint8_t port, uint8_t value)
{
    switch (port) {
    case 0x03: expand(port_short(0x02)); break;
    case 0x04: working.pointer = value; break;
    case 0x05: returns.pointer = value; break;
    case 0x0e:
        if (value) {
            put_stack("WST", &working);
            put_stack("RST", &returns);
        }
    }
}

void write_port(uint8_t port, uint8_t value)
{
    trace_write(port);
    ports[port] = value;
    switch (port >> 4) {
    case 0x0: write_system(port, value); break;
    case 0x1:
        if (port == 0x18) {
            trace_output();
            putc(value, stdout);
        }
        if (port == 0x19)
            putc(value, stderr);
        break;
    case 0x2:
        if (port == 0x23) resize_screen(port_short(0x22), screen_height());
        if (port == 0x25) resize_screen(screen_width(), port_short(0x24));
        if (port == 0x2e) draw_pixel(value);
        if (port == 0x2f) draw_sprite(value);
        break;
    case 0x3: case 0x4: case 0x5: case 0x6:
        if ((port & 15) == 15) start_note((port >> 4) - 3);
        break;
    case 0xa: case 0xb: write_file_port(port); break;
    }
}
