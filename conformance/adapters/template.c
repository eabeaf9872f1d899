/* A command line for an emulator that has none: template ROM PICTURE CLOCK [ARGUMENT..]
 *     gcc -O2 -Iconformance/second -o template conformance/adapters/template.c \
 *         conformance/second/{uxn,varvara,screen,audio,files,trace}.c
 *     conformance/run --emulator './template {rom} {picture} {clock} {args}'
 * The first functions are to call your emulator; here they call the second one. PICTURE, where the last screen goes,
 * and CLOCK, the seconds since 1970 at the start, may be -. */
#include <stdlib.h>
#include <string.h>
#include "uxn.h"

static uint8_t *memory(void) { return ram; }
static void run(uint16_t address) { run_vector(address); }
static uint8_t port(uint8_t number) { return ports[number]; }
static void set_port(uint8_t number, uint8_t value) { ports[number] = value; }
static void start_clock(long long seconds) { set_clock(seconds, 0); }
static void write_ppm(FILE *file) { put_picture(file); }
static void start(void) { store_port_short(0x22, screen_width()), store_port_short(0x24, screen_height()); }

static const char *picture;
static void finish_if(int is_end)
{
    FILE *file = (is_end || port(0x0f)) && strcmp(picture, "-") ? fopen(picture, "wb") : NULL;
    if (file)
        write_ppm(file), fclose(file);
    if (is_end || port(0x0f))
        exit(port(0x0f) & 0x7f);
}

static void give(int byte, int type)
{
    set_port(0x12, (uint8_t)byte);
    set_port(0x17, (uint8_t)type);
    if (port(0x10) || port(0x11))
        run((uint16_t)(port(0x10) << 8 | port(0x11)));
    finish_if(0);
}

int main(int count, char **words)
{
    FILE *rom = count > 3 ? fopen(words[1], "rb") : NULL;
    int at, byte;
    if (!rom || !fread(memory() + 0x100, 1, BANKS * 0x10000 - 0x100, rom))
        return fprintf(stderr, "template ROM PICTURE CLOCK [ARGUMENT..]\n"), 2;
    picture = words[2];
    if (strcmp(words[3], "-"))
        start_clock(atoll(words[3]));
    start();
    set_port(0x17, count > 4);
    run(0x0100);
    finish_if(0);
    for (at = 4; at < count; at++) {
        for (; *words[at]; words[at]++)
            give((uint8_t)*words[at], 2);
        give('\n', at + 1 < count ? 3 : 4);
    }
    while ((port(0x10) || port(0x11)) && (byte = getchar()) != EOF)
        give(byte, 1);
    give(0, 4);
    finish_if(1);
}
