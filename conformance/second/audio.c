/* Four voices. The device reference names their ports; all numbers are those of the suite's profile. */
#include "uxn.h"

struct voice {
    int on, repeats;
    uint64_t age, advance, period, length;
    uint32_t attack, decay, sustain, release;
    uint16_t address;
    uint8_t volume;
};

static struct voice voices[4];
static const uint32_t advances[12] = {0x80000, 0x879c8, 0x8facd, 0x9837f, 0xa1451, 0xaadc1,
                                      0xb504f, 0xbfc88, 0xcb2ff, 0xd7450, 0xe411f, 0xf1a1c};

void start_note(int number)
{
    uint8_t base = (uint8_t)(0x30 + number * 16), pitch = ports[base + 15] & 0x7f;
    uint16_t adsr = port_short(base + 8);
    struct voice *voice = &voices[number];
    voice->address = port_short(base + 12);
    voice->length = port_short(base + 10);
    if (voice->length > 65536u - voice->address)
        voice->length = 65536u - voice->address;
    voice->on = pitch < 108 && voice->length > 0;
    if (!voice->on)
        return;
    voice->repeats = !(ports[base + 15] & 0x80);
    voice->age = 0;
    voice->advance = advances[pitch % 12] >> (8 - pitch / 12);
    voice->period = voice->length > 256 ? 65536 : 11042816 / voice->length;
    voice->attack = (adsr >> 12) * 2940u;
    voice->decay = voice->attack + (adsr >> 8 & 15) * 2940u;
    voice->sustain = voice->decay + (adsr >> 4 & 15) * 2940u;
    voice->release = voice->sustain + (adsr & 15) * 2940u;
    voice->volume = ports[base + 14];
}

static int envelope(const struct voice *voice)
{
    uint64_t t = voice->age;
    uint32_t a = voice->attack, d = voice->decay, s = voice->sustain, r = voice->release;
    if (r == 0)
        return 2184;
    if (t < a)
        return (int)(2184 * t / a);
    if (t < d)
        return (int)(1092 * (2 * (uint64_t)d - a - t) / (d - a));
    if (t < s)
        return 1092;
    return t < r ? (int)(1092 * (r - t) / (r - s)) : 0;
}

static uint64_t place(const struct voice *voice, uint64_t steps)
{
    uint64_t at = steps * voice->advance / voice->period;
    return voice->repeats ? at % voice->length : at;
}

uint16_t note_position(int number)
{
    return voices[number].on ? (uint16_t)place(&voices[number], voices[number].age) : 0;
}

uint8_t note_output(int number)
{
    const struct voice *voice = &voices[number];
    int side, result = 0;
    for (side = 4; side >= 0 && voice->on; side -= 4) {
        int volume = voice->volume >> side & 15, loud = 1 + envelope(voice) * volume / 2048;
        result |= (volume == 0 ? 0 : loud < 15 ? loud : 15) << side;
    }
    return (uint8_t)result;
}

/* Adds the next sample of a voice to both sides. Answers whether its note has ended. */
static int mix(struct voice *voice, int *left, int *right)
{
    uint64_t at = place(voice, voice->age + 1);
    int ended = (voice->release && voice->age >= voice->release) || (!voice->repeats && at >= voice->length);
    if (!ended) {
        int value = (int8_t)(ram[(uint16_t)(voice->address + at)] ^ 0x80) * envelope(voice);
        *left += value * (voice->volume >> 4) / 384;
        *right += value * (voice->volume & 15) / 384;
        voice->age++;
    }
    return ended;
}

/* Renders 735 samples; a bit is set for each voice whose note ended. */
unsigned render_frame(FILE *file)
{
    unsigned ended = 0;
    int sample, number;
    for (sample = 0; sample < 735; sample++) {
        int left = 0, right = 0;
        for (number = 0; number < 4; number++)
            if (voices[number].on && mix(&voices[number], &left, &right)) {
                voices[number].on = 0;
                ended |= 1u << number;
            }
        if (file) {
            fputc(left & 255, file);
            fputc(left >> 8 & 255, file);
            fputc(right & 255, file);
            fputc(right >> 8 & 255, file);
        }
    }
    return ended;
}
