/* The two file devices, over the folder that the emulator was started in. */
#include <dirent.h>
#include <stdlib.h>
#include <string.h>
#include <sys/stat.h>
#include <unistd.h>
#include "uxn.h"

enum mode { IDLE, READING, WRITING };

struct device {
    char path[257];
    int has_path;
    enum mode mode;
    char *listing;
    long place;
};

static struct device devices[2];

static void become_idle(struct device *device)
{
    free(device->listing);
    device->listing = NULL;
    device->mode = IDLE;
    device->place = 0;
}

/* A path that stays beneath the folder: parts that are no dots, without a slash at either end. */
static int is_path(const char *path)
{
    const char *part = path, *end;
    if (!strcmp(path, "."))
        return 1;
    for (;; part = end + 1) {
        size_t length = strcspn(part, "/");
        end = part + length;
        if (!length || (length == 1 && *part == '.') || (length == 2 && !strncmp(part, "..", 2)))
            return 0;
        if (memchr(part, '\\', length))
            return 0;
        if (!*end)
            return 1;
    }
}

static int has_control_byte(const char *path)
{
    for (; *path; path++)
        if ((uint8_t)*path < 0x20 || *path == 0x7f)
            return 1;
    return 0;
}

static void set_name(struct device *device, uint16_t address)
{
    int length = 0;
    become_idle(device);
    while (length < 256 && ram[(uint16_t)(address + length)]) {
        device->path[length] = (char)ram[(uint16_t)(address + length)];
        length++;
    }
    device->path[length] = 0;
    device->has_path = length < 256 && is_path(device->path) && !has_control_byte(device->path);
}

/* 'f' for a file, 'd' for a folder, 0 for nothing. */
static char kind_of(const char *path, long *size)
{
    struct stat found;
    if (stat(path, &found))
        return 0;
    *size = (long)found.st_size;
    return S_ISDIR(found.st_mode) ? 'd' : S_ISREG(found.st_mode) ? 'f' : 0;
}

static void put_signs(char *into, int count, char kind, long size)
{
    int at;
    memset(into, kind == 'd' ? '-' : '!', (size_t)count);
    if (kind != 'f')
        return;
    for (at = count - 1; at >= 0; at--, size >>= 4)
        into[at] = "0123456789abcdef"[size & 15];
    if (size)
        memset(into, '?', (size_t)count);
}

static int by_bytes(const void *a, const void *b)
{
    return strcmp(*(char *const *)a, *(char *const *)b);
}

/* A line for each thing in the folder. */
static char *make_listing(const char *folder)
{
    DIR *open = opendir(folder);
    char *names[4096], path[600], *listing = calloc(1, 1);
    size_t count = 0, at, length = 0;
    struct dirent *entry;
    while (open && (entry = readdir(open)) && count < 4096)
        if (strcmp(entry->d_name, ".") && strcmp(entry->d_name, ".."))
            names[count++] = strdup(entry->d_name);
    if (open)
        closedir(open);
    qsort(names, count, sizeof *names, by_bytes);
    for (at = 0; at < count; at++) {
        long size = 0;
        char kind, signs[5] = "";
        snprintf(path, sizeof path, "%s/%s", folder, names[at]);
        kind = kind_of(path, &size);
        put_signs(signs, 4, kind, size);
        listing = realloc(listing, length + strlen(names[at]) + 8);
        length += (size_t)sprintf(listing + length, "%s %s%s\n", signs, names[at], kind == 'd' ? "/" : "");
        free(names[at]);
    }
    return listing;
}

static uint16_t read_file(struct device *device, uint16_t address, uint32_t length)
{
    long size = 0, left;
    char kind = device->has_path ? kind_of(device->path, &size) : 0;
    FILE *file;
    if (device->mode != READING) {
        become_idle(device);
        if (!kind)
            return 0;
        device->mode = READING;
        if (kind == 'd')
            device->listing = make_listing(device->path);
    }
    if (device->listing)
        size = (long)strlen(device->listing);
    else if (kind != 'f')
        return 0;
    left = size > device->place ? size - device->place : 0;
    if ((long)length > left)
        length = (uint32_t)left;
    if (device->listing)
        memcpy(ram + address, device->listing + device->place, length);
    else if ((file = fopen(device->path, "rb"))) {
        fseek(file, device->place, SEEK_SET);
        length = (uint32_t)fread(ram + address, 1, length, file);
        fclose(file);
    }
    device->place += length;
    return (uint16_t)length;
}

static uint16_t write_file(struct device *device, uint16_t address, uint32_t length, int append)
{
    long size = 0;
    char kind = device->has_path ? kind_of(device->path, &size) : 0;
    FILE *file;
    if (!device->has_path || kind == 'd' || (device->mode == WRITING && kind != 'f')) {
        become_idle(device);
        return 0;
    }
    file = fopen(device->path, device->mode == WRITING || append ? "ab" : "wb");
    if (!file) {
        become_idle(device);
        return 0;
    }
    if (device->mode != WRITING)
        become_idle(device);
    device->mode = WRITING;
    length = (uint32_t)fwrite(ram + address, 1, length, file);
    fclose(file);
    return (uint16_t)length;
}

static uint16_t stat_file(struct device *device, uint16_t address, uint32_t length)
{
    long size = 0;
    char kind = device->has_path ? kind_of(device->path, &size) : 0;
    put_signs((char *)ram + address, (int)length, kind, size);
    return kind ? (uint16_t)length : 0;
}

static uint16_t delete_file(struct device *device)
{
    long size = 0;
    char kind = device->has_path ? kind_of(device->path, &size) : 0;
    become_idle(device);
    return kind == 'f' && !unlink(device->path);
}

/* Acts on a write to a port of a file device. */
void write_file_port(uint8_t port)
{
    struct device *device = &devices[port >= 0xb0];
    uint8_t base = port & 0xf0;
    uint16_t address = port_short((uint8_t)(port - 1)), success = 0;
    uint32_t length = port_short(base + 0x0a), room = 0x10000u - address;
    if (length > room)
        length = room;
    switch (port & 15) {
    case 0x5: success = stat_file(device, address, length); break;
    case 0x6: success = delete_file(device); break;
    case 0x9: set_name(device, address); break;
    case 0xd: success = read_file(device, address, length); break;
    case 0xf: success = write_file(device, address, length, ports[base + 7] & 1); break;
    default: return;
    }
    store_port_short(base + 2, success);
}
