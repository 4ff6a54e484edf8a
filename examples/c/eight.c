/* Reads up to eight captures as the eight lines of a station, and prints what the lines answer.
 *
 * usage: eight FILE.. (the first is line 0, the second line 1, and so on)
 *
 * A capture is H (historic), S (standard) or P (business), then wire bytes. Each answer is a line of output, as
 * `4 frame 3: 5`: the number of the line; `frame`, the frame number, by which one sees what came together, and a colon; the
 * number of the answer and, where that is 1, label, stamp or `-`, and data, each after a space; where it is 12 or 14, the
 * place in the group's content where it went wrong. A capture that is empty, or begins otherwise, has the answer 20 and no
 * frame: `6 20`. Exit status 0; 1 where a file can't be read; 2 for bad usage.
 *
 * It needs no header but espandim.h: what it uses of the C library is declared here, for a compiler that has none. */
#include "espandim.h"

extern int open(const char *path, int flags, ...);
extern long read(int file, void *bytes, size_t room);
extern long write(int file, const void *bytes, size_t length);

static const char usage[] = "usage: eight FILE.. (one to eight captures)\n";

#define NO_MODE 4294967295u

/* One source: its file, and the bytes that were read of it and are not delivered yet. */
struct source {
    int file;      /* -1 where it has come to its end, or is no capture */
    size_t length; /* of the bytes that wait here */
    uint8_t bytes[64];
};

static void show(const void *bytes, size_t length) {
    const char *from = bytes;
    while (length > 0) {
        long written = write(1, from, length);
        if (written <= 0) {
            return;
        }
        from += written;
        length -= (size_t)written;
    }
}

/* A number below 100,000: the largest is that of a frame. */
static void show_number(uint32_t number) {
    char digits[5];
    size_t at = sizeof digits;
    do {
        digits[--at] = (char)('0' + number % 10);
        number /= 10;
    } while (number > 0 && at > 0);
    show(digits + at, sizeof digits - at);
}

/* The three fields of an accepted group: their lengths stand before them. An empty stamp is shown as `-`, or else the data
 * could be taken for it. */
static void show_fields(const uint8_t *entry) {
    const uint8_t *label = espandim_text(entry), *stamp = label + entry[1], *data = stamp + entry[2];
    show(" ", 1);
    show(label, entry[1]);
    show(" ", 1);
    if (entry[2] == 0) {
        show("-", 1);
    } else {
        show(stamp, entry[2]);
    }
    show(" ", 1);
    show(data, entry[3]);
}

/* An entry of a sheet: its frame, its number, and then the fields of an accepted group, or the place where a refused one
 * went wrong. */
static void show_entry(uint32_t line, const uint8_t *entry) {
    show_number(line);
    show(" frame ", 7);
    show_number(espandim_frame(entry));
    show(": ", 2);
    show_number(entry[0]);
    if (entry[0] == ESPANDIM_ACCEPTED) {
        show_fields(entry);
    } else if (espandim_place(entry) != 0) { /* it is told for 12 and 14 */
        show(" ", 1);
        show_number((uint32_t)espandim_place(entry));
    }
    show("\n", 1);
}

/* The mode that the first byte of a capture names; one that is none for any other byte. */
static uint32_t mode_of(uint8_t letter) {
    switch (letter) {
    case 'H':
        return ESPANDIM_HISTORIC;
    case 'S':
        return ESPANDIM_STANDARD;
    case 'P':
        return ESPANDIM_BUSINESS;
    default:
        return NO_MODE;
    }
}

/* Opens the line of a capture by its first byte. */
static int begin(struct espandim_station *station, uint32_t line, struct source *source, const char *path) {
    uint8_t first;
    source->length = 0;
    source->file = open(path, 0);
    if (source->file < 0) {
        return 0;
    }
    if (read(source->file, &first, 1) == 1 && mode_of(first) != NO_MODE) {
        return espandim_open(station, line, mode_of(first)) == ESPANDIM_DONE;
    }
    source->file = -1;
    show_number(line);
    show(" 20\n", 4);
    return 1;
}

/* Delivers what there is of a source. Where the inbox has no room for it yet, it waits here: 15 changes nothing, and
 * every round makes room. Tells whether the source has more to give. */
static int go_on(struct espandim_station *station, uint32_t line, struct source *source) {
    if (source->length == 0 && source->file >= 0) {
        long got = read(source->file, source->bytes, sizeof source->bytes);
        if (got > 0) {
            source->length = (size_t)got;
        } else {
            source->file = -1;
        }
    }
    if (source->length > 0 && espandim_deliver(station, line, source->bytes, source->length) != ESPANDIM_NO_ROOM) {
        source->length = 0;
    }
    return source->length > 0 || source->file >= 0;
}

int main(int count, char **arguments) {
    static struct espandim_station station; /* zeros: all lines closed */
    static struct source sources[ESPANDIM_LINES];
    static uint8_t sheet[ESPANDIM_SMALLEST_SHEET], counts[ESPANDIM_LINES];
    uint32_t lines = (uint32_t)count - 1, line;
    int more = 1;
    if (count < 2 || count > 1 + ESPANDIM_LINES) {
        write(2, usage, sizeof usage - 1);
        return 2;
    }
    for (line = 0; line < lines; line++) {
        if (!begin(&station, line, &sources[line], arguments[1 + line])) {
            return 1;
        }
    }
    /* Until no source has more to give, and a round has taken nothing. */
    while (more) {
        more = 0;
        for (line = 0; line < lines; line++) {
            more |= go_on(&station, line, &sources[line]);
        }
        espandim_round(&station, sheet, sizeof sheet, counts);
        for (line = 0; line < lines; line++) {
            const uint8_t *entry = espandim_entry(sheet, line);
            if (entry) {
                show_entry(line, entry);
            }
        }
        more |= !espandim_idle(counts);
    }
    return 0;
}
