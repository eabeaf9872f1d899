/* A second Uxn and Varvara, small and plain: written from the public opcode and device references, for comparison. */
#ifndef UXN_H
#define UXN_H
#include <stdint.h>
#include <stdio.h>

#define BANKS 16

struct stack {
    uint8_t bytes[256];
    uint8_t pointer;
};

extern uint8_t ram[BANKS * 0x10000];
extern uint8_t ports[256];
extern struct stack working, returns;

/* uxn.c */
void run_vector(uint16_t address);
uint16_t short_at(uint16_t address);
uint16_t port_short(uint8_t port);
void store_port_short(uint8_t port, uint16_t value);

/* varvara.c */
uint8_t read_port(uint8_t port);
void write_port(uint8_t port, uint8_t value);
void set_clock(int64_t seconds, int minutes);
extern uint32_t frames_begun;
extern int has_clock;

/* screen.c */
void start_screen(void);
void resize_screen(uint16_t width, uint16_t height);
uint16_t screen_width(void);
uint16_t screen_height(void);
void draw_pixel(uint8_t control);
void draw_sprite(uint8_t control);
void put_picture(FILE *file);

/* audio.c */
void start_note(int voice);
uint16_t note_position(int voice);
uint8_t note_output(int voice);
unsigned render_frame(FILE *file);

/* files.c */
void write_file_port(uint8_t port);

/* trace.c */
extern uint16_t instruction_at;
void trace_instruction(uint16_t address, uint8_t opcode);
void trace_read(uint8_t port);
void trace_write(uint8_t port);
void trace_output(void);
void open_trace(const char *path);
void close_trace(void);
#endif
