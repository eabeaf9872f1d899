/* Reads the file of {sdl} and plays it: for an emulator that takes its events from SDL 2. Untried with an emulator.
 *
 * A line is an event of SDL with its words, or one of: frame (run the screen's vector once), shot (write a picture),
 * clock S M, stdin B, stdin end. Call next_event between frames until it answers 0. What SDL has no event for comes
 * to `other`, which is your emulator's. */
#include <SDL.h>
#include <stdio.h>
#include <string.h>

void other(const char *name, long a, long b);

static const struct { const char *name; SDL_Keycode key; } keys[] = {
    {"SDLK_LCTRL", SDLK_LCTRL}, {"SDLK_LALT", SDLK_LALT}, {"SDLK_LSHIFT", SDLK_LSHIFT}, {"SDLK_HOME", SDLK_HOME},
    {"SDLK_UP", SDLK_UP}, {"SDLK_DOWN", SDLK_DOWN}, {"SDLK_LEFT", SDLK_LEFT}, {"SDLK_RIGHT", SDLK_RIGHT}};

static SDL_Keycode key_of(const char *name)
{
    size_t at;
    for (at = 0; at < sizeof keys / sizeof *keys; at++)
        if (!strcmp(keys[at].name, name))
            return keys[at].key;
    return SDLK_UNKNOWN;
}

/* Puts the next event into SDL's queue, or gives it to `other`; answers 0 at the end of the file. */
int next_event(FILE *file)
{
    char line[128], name[32], word[32] = "";
    long a = 0, b = 0;
    SDL_Event event;
    if (!fgets(line, sizeof line, file) || sscanf(line, "%31s %31s", name, word) < 1)
        return 0;
    sscanf(line, "%*s %ld %ld", &a, &b);
    memset(&event, 0, sizeof event);
    if (!strcmp(name, "SDL_KEYDOWN") || !strcmp(name, "SDL_KEYUP")) {
        event.type = strcmp(name, "SDL_KEYUP") ? SDL_KEYDOWN : SDL_KEYUP;
        event.key.keysym.sym = key_of(word);
    } else if (!strcmp(name, "SDL_TEXTINPUT")) {
        event.type = SDL_TEXTINPUT;
        event.text.text[0] = (char)a;
    } else if (!strcmp(name, "SDL_MOUSEMOTION")) {
        event.type = SDL_MOUSEMOTION;
        event.motion.x = (Sint32)a;
        event.motion.y = (Sint32)b;
    } else if (!strcmp(name, "SDL_MOUSEBUTTONDOWN") || !strcmp(name, "SDL_MOUSEBUTTONUP")) {
        event.type = strcmp(name, "SDL_MOUSEBUTTONUP") ? SDL_MOUSEBUTTONDOWN : SDL_MOUSEBUTTONUP;
        event.button.button = (Uint8)a;
    } else if (!strcmp(name, "SDL_MOUSEWHEEL")) {
        event.type = SDL_MOUSEWHEEL;
        event.wheel.x = (Sint32)a;
        event.wheel.y = (Sint32)b;
    } else if (!strcmp(name, "SDL_QUIT")) {
        event.type = SDL_QUIT;
    } else {
        other(name, strcmp(word, "end") ? a : -1, b);
        return 1;
    }
    SDL_PushEvent(&event);
    return 1;
}
