/* The screen: two layers of pixels, drawn by the ports 2e and 2f, by the device reference. */
#include <string.h>
#include "uxn.h"

#define MOST 2047

static uint8_t layers[2][MOST * MOST];
static uint16_t wide = 512, high = 320;

/* What each value of a tile is drawn as, for each blend; value 0 draws nothing where the blend is a multiple of 5. */
static const uint8_t blending[4][16] = {
    {0, 0, 0, 0, 1, 0, 1, 1, 2, 2, 0, 2, 3, 3, 3, 0},
    {0, 1, 2, 3, 0, 1, 2, 3, 0, 1, 2, 3, 0, 1, 2, 3},
    {1, 2, 3, 1, 1, 2, 3, 1, 1, 2, 3, 1, 1, 2, 3, 1},
    {2, 3, 1, 2, 2, 3, 1, 2, 2, 3, 1, 2, 2, 3, 1, 2},
};

uint16_t screen_width(void)
{
    return wide;
}

uint16_t screen_height(void)
{
    return high;
}

void resize_screen(uint16_t width, uint16_t height)
{
    if (width < 8 || height < 8 || width > MOST || height > MOST || (width == wide && height == high))
        return;
    wide = width;
    high = height;
    memset(layers, 0, sizeof layers);
}

static void put(int layer, uint16_t x, uint16_t y, uint8_t colour)
{
    if (x < wide && y < high)
        layers[layer][y * MOST + x] = colour;
}

static void fill(int layer, uint8_t control, uint16_t x, uint16_t y)
{
    uint16_t left = control & 0x10 ? 0 : x, right = control & 0x10 ? x : wide;
    uint16_t top = control & 0x20 ? 0 : y, bottom = control & 0x20 ? y : high;
    uint16_t column, row;
    for (row = top; row < bottom && row < high; row++)
        for (column = left; column < right && column < wide; column++)
            put(layer, column, row, control & 3);
}

void draw_pixel(uint8_t control)
{
    int layer = control & 0x40 ? 1 : 0;
    uint16_t x = port_short(0x28), y = port_short(0x2a);
    if (control & 0x80) {
        fill(layer, control, x, y);
        return;
    }
    put(layer, x, y, control & 3);
    if (ports[0x26] & 1)
        store_port_short(0x28, x + 1);
    if (ports[0x26] & 2)
        store_port_short(0x2a, y + 1);
}

static void draw_tile(uint8_t control, uint16_t x, uint16_t y, uint16_t address)
{
    int layer = control & 0x40 ? 1 : 0, blend = control & 0x0f;
    uint16_t row, column;
    for (row = 0; row < 8; row++)
        for (column = 0; column < 8; column++) {
            uint16_t line = control & 0x20 ? 7 - row : row;
            uint16_t bit = control & 0x10 ? column : 7 - column;
            int value = ram[(uint16_t)(address + line)] >> bit & 1;
            if (control & 0x80)
                value |= (ram[(uint16_t)(address + line + 8)] >> bit & 1) << 1;
            if (value || blend % 5)
                put(layer, x + column, y + row, blending[value][blend]);
        }
}

void draw_sprite(uint8_t control)
{
    uint8_t automatic = ports[0x26];
    uint16_t x = port_short(0x28), y = port_short(0x2a), address = port_short(0x2c);
    uint16_t size = control & 0x80 ? 16 : 8, step = automatic & 4 ? size : 0;
    int to_right = control & 0x10 ? -8 : 8, downwards = control & 0x20 ? -8 : 8;
    int tile, tiles = (automatic >> 4) + 1;
    for (tile = 0; tile < tiles; tile++)
        draw_tile(control, (uint16_t)(x + (automatic & 2 ? tile * to_right : 0)),
                  (uint16_t)(y + (automatic & 1 ? tile * downwards : 0)), (uint16_t)(address + tile * step));
    if (automatic & 1)
        store_port_short(0x28, (uint16_t)(x + to_right));
    if (automatic & 2)
        store_port_short(0x2a, (uint16_t)(y + downwards));
    if (automatic & 4)
        store_port_short(0x2c, (uint16_t)(address + tiles * size));
}

static uint8_t colour_part(uint8_t port, uint8_t colour)
{
    return (uint8_t)((port_short(port) >> (12 - 4 * colour) & 0x0f) * 17);
}

void put_picture(FILE *file)
{
    uint16_t x, y;
    uint8_t part;
    fprintf(file, "P6\n%d %d\n255\n", wide, high);
    for (y = 0; y < high; y++)
        for (x = 0; x < wide; x++) {
            uint8_t front = layers[1][y * MOST + x];
            for (part = 0; part < 3; part++)
                fputc(colour_part(0x08 + 2 * part, front ? front : layers[0][y * MOST + x]), file);
        }
}
