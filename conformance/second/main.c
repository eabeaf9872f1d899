/* second [--events FILE] [--frames FILE] [--samples FILE] [--trace FILE] ROM [ARGUMENT..]
 *
 * Runs a ROM: the reset vector, the bytes of the arguments, and then the events of FILE (the suite's own form, in
 * JSON), or without it the standard input and its end. Files are those of the current folder. */
#include <stdlib.h>
#include <string.h>
#include "uxn.h"

static FILE *frames_file, *samples_file;
static const char *const buttons[8] = {"a", "b", "select", "start", "up", "down", "left", "right"};

static void finish(void)
{
    fflush(stdout);
    if (frames_file)
        fclose(frames_file);
    if (samples_file)
        fclose(samples_file);
    close_trace();
    exit(ports[0x0f] & 0x7f);
}

static void run(uint16_t address)
{
    run_vector(address);
    if (ports[0x0f])
        finish();
}

static void run_port_vector(uint8_t port)
{
    uint16_t address = port_short(port);
    if (address)
        run(address);
}

static void give_console(uint8_t byte, uint8_t type)
{
    ports[0x12] = byte;
    ports[0x17] = type;
    run_port_vector(0x10);
}

static void give_arguments(int count, char **arguments)
{
    int at;
    const char *byte;
    for (at = 0; at < count; at++) {
        for (byte = arguments[at]; *byte; byte++)
            give_console((uint8_t)*byte, 2);
        give_console('\n', at + 1 < count ? 3 : 4);
    }
}

static void give_frame(void)
{
    unsigned ended;
    int voice;
    frames_begun++;
    run_port_vector(0x20);
    ended = render_frame(samples_file);
    for (voice = 0; voice < 4; voice++)
        if (ended >> voice & 1)
            run_port_vector((uint8_t)(0x30 + 16 * voice));
}

static void give_key(uint8_t key)
{
    ports[0x83] = key;
    run_port_vector(0x80);
    ports[0x83] = 0;
}

static void give_button(const char *name, int player, int is_down)
{
    static const uint8_t of_player[4] = {0x82, 0x85, 0x86, 0x87};
    int bit;
    uint8_t port = of_player[player >= 1 && player <= 4 ? player - 1 : 0];
    for (bit = 0; bit < 8; bit++)
        if (!strcmp(name, buttons[bit]))
            ports[port] = (uint8_t)(is_down ? ports[port] | 1 << bit : ports[port] & ~(1 << bit));
    run_port_vector(0x80);
}

static void give_press(long number, int is_down)
{
    uint8_t bit = (uint8_t)(1 << (number - 1));
    ports[0x96] = (uint8_t)(is_down ? ports[0x96] | bit : ports[0x96] & ~bit);
    run_port_vector(0x90);
}

static void give_two(uint8_t port, long x, long y)
{
    store_port_short(port, (uint16_t)x);
    store_port_short(port + 2, (uint16_t)y);
    run_port_vector(0x90);
}

/* One event: its words, numbers among them as they stand. */
static void give_event(char words[5][32], int count)
{
    const char *name = words[0];
    long x = atol(words[1]), y = atol(words[2]);
    if (!strcmp(name, "clock")) set_clock(atoll(words[1]), (int)y);
    else if (!strcmp(name, "input")) give_console((uint8_t)x, 1);
    else if (!strcmp(name, "end")) give_console(0, 4);
    else if (!strcmp(name, "frame")) give_frame();
    else if (!strcmp(name, "key")) give_key((uint8_t)x);
    else if (!strcmp(name, "down")) give_button(words[1], count > 2 ? (int)y : 1, 1);
    else if (!strcmp(name, "up")) give_button(words[1], count > 2 ? (int)y : 1, 0);
    else if (!strcmp(name, "mouse")) give_two(0x92, x, y);
    else if (!strcmp(name, "press")) give_press(x, 1);
    else if (!strcmp(name, "release")) give_press(x, 0);
    else if (!strcmp(name, "scroll")) {
        give_two(0x9a, x, y);
        store_port_short(0x9a, 0);
        store_port_short(0x9c, 0);
    } else if (!strcmp(name, "shot")) {
        if (frames_file)
            put_picture(frames_file);
    } else
        fprintf(stderr, "second: no event %s\n", name);
}

/* Reads the next event of a list of lists of words and numbers; answers how many words it has, 0 at the end. */
static int next_event(FILE *file, char words[5][32])
{
    int sign, count = 0, length = 0;
    memset(words, 0, 5 * 32);
    while ((sign = getc(file)) != EOF) {
        if (!strchr("[], \"\n\t", sign)) {
            if (length < 31 && count < 5)
                words[count][length++] = (char)sign;
            continue;
        }
        if (length) {
            count++;
            length = 0;
        }
        if (sign == ']')
            return count;
    }
    return 0;
}

static void give_events(FILE *file, int only_clock)
{
    char words[5][32];
    while (next_event(file, words))
        if ((strcmp(words[0], "clock") == 0) == only_clock)
            give_event(words, words[2][0] ? 3 : 2);
}

static void give_input(void)
{
    int byte;
    while (port_short(0x10) && (byte = getchar()) != EOF)
        give_console((uint8_t)byte, 1);
    give_console(0, 4);
}

static void load(const char *path)
{
    FILE *file = fopen(path, "rb");
    if (!file) {
        fprintf(stderr, "second: there is no ROM %s\n", path);
        exit(2);
    }
    (void)!fread(ram + 0x100, 1, sizeof ram - 0x100, file);
    fclose(file);
}

static FILE *open_output(const char *path, const char *mode)
{
    FILE *file = fopen(path, mode);
    if (!file) {
        fprintf(stderr, "second: the file %s cannot be opened\n", path);
        exit(2);
    }
    return file;
}

int main(int count, char **words)
{
    FILE *events = NULL;
    int at = 1;
    for (; at + 1 < count && !strncmp(words[at], "--", 2); at += 2) {
        if (!strcmp(words[at + 1], "-")) continue;
        else if (!strcmp(words[at], "--events")) events = open_output(words[at + 1], "r");
        else if (!strcmp(words[at], "--frames")) frames_file = open_output(words[at + 1], "wb");
        else if (!strcmp(words[at], "--samples")) samples_file = open_output(words[at + 1], "wb");
        else if (!strcmp(words[at], "--trace")) open_trace(words[at + 1]);
        else break;
    }
    if (at >= count) {
        fprintf(stderr, "second: [--events FILE] [--frames FILE] [--samples FILE] [--trace FILE] ROM [ARGUMENT..]\n");
        return 2;
    }
    load(words[at]);
    if (events) {
        set_clock(0, 0);
        give_events(events, 1);
        rewind(events);
    }
    ports[0x17] = at + 1 < count;
    store_port_short(0x22, screen_width());
    store_port_short(0x24, screen_height());
    run(0x0100);
    give_arguments(count - at - 1, words + at + 1);
    if (events)
        give_events(events, 0);
    else
        give_input();
    finish();
}
