/* Tries the lines in C that README.md shows, on captures that are cut in many ways, and the helpers of espandim.h. The
 * script `readme` takes the lines out of README.md, builds this with them, and holds what is written against the listing.
 *
 * usage: readme each FILE | eight FILE.. | stripped FILE | words | helpers
 *
 *   each      a capture in chunks of one size, for each size of 1 to 300, and then in chunks of mixed sizes
 *   eight     eight captures as eight lines, in chunks of mixed sizes
 *   stripped  a capture as a port of seven bits hands it over, without the top bit of each byte
 *   words     the words of the numbers 0 to 21, and of the largest
 *   helpers   nothing, where all is as espandim.h says; exit status 1 otherwise
 *
 * An answer is written as the listing has it, behind the number of its line. Exit status 2 for bad usage, or a file that
 * can't be read or is no capture. */
#include "shown.inc" /* README's lines */

extern int open(const char *path, int flags, ...);
extern long read(int file, void *bytes, size_t room);
extern long write(int file, const void *bytes, size_t length);

/* What is to be written, gathered. */
static char gathered[1 << 16];
static size_t length;

static void flush(void) {
    size_t from = 0;
    while (from < length) {
        long written = write(1, gathered + from, length - from);
        if (written <= 0) {
            break;
        }
        from += (size_t)written;
    }
    length = 0;
}

static void say(const char *text, size_t count) {
    size_t i;
    for (i = 0; i < count; i++) {
        if (length == sizeof gathered) {
            flush();
        }
        gathered[length++] = text[i];
    }
}

static void say_text(const char *text) {
    size_t count = 0;
    while (text[count] != 0) {
        count++;
    }
    say(text, count);
}

static void say_number(uint32_t number) {
    char digits[10];
    size_t at = sizeof digits;
    do {
        digits[--at] = (char)('0' + number % 10);
        number /= 10;
    } while (number > 0);
    say(digits + at, sizeof digits - at);
}

/* What README leaves to the reader: here the answer, as the listing has it, behind the number of its line. */
void answered(uint32_t line, const uint8_t *entry) {
    say_number(line);
    say(" ", 1);
    say_number(entry[0]);
    if (entry[0] == ESPANDIM_ACCEPTED) {
        const char *label = (const char *)espandim_text(entry), *stamp = label + entry[1], *data = stamp + entry[2];
        say(" ", 1);
        say(label, entry[1]);
        say(" ", 1);
        say(entry[2] > 0 ? stamp : "-", entry[2] > 0 ? entry[2] : 1);
        say(" ", 1);
        say(data, entry[3]);
    } else if (espandim_place(entry) != 0) { /* it is told for 12 and 14 */
        say(" ", 1);
        say_number((uint32_t)espandim_place(entry));
    }
    say("\n", 1);
}

/* A capture: its mode, and the bytes behind the letter, of which some were heard. */
struct capture {
    uint32_t mode;
    size_t count, heard;
    uint8_t bytes[1 << 16];
};
static struct capture captures[ESPANDIM_LINES];

static int load(struct capture *capture, const char *path) {
    int file = open(path, 0);
    uint8_t letter = 0;
    long got;
    if (file < 0 || read(file, &letter, 1) != 1 || (letter != 'H' && letter != 'S' && letter != 'P')) {
        return 0;
    }
    capture->mode = letter == 'H' ? ESPANDIM_HISTORIC : letter == 'S' ? ESPANDIM_STANDARD : ESPANDIM_BUSINESS;
    capture->count = capture->heard = 0;
    while ((got = read(file, capture->bytes + capture->count, sizeof capture->bytes - capture->count)) > 0) {
        capture->count += (size_t)got;
    }
    return got == 0 && capture->count < sizeof capture->bytes;
}

/* The station anew, with a line for a capture. */
static void again(void) {
    static const struct espandim_station closed;
    station = closed;
}

static void begin_with(uint32_t line, struct capture *capture) {
    uint32_t number = begin(line, capture->mode);
    if (number != 0) {
        say_text("begin gave "), say_number(number), say_text("\n");
    }
    capture->heard = 0;
}

/* The next bytes of a capture, at most so many. Tells whether there are more; a refusal ends it. */
static int next(uint32_t line, struct capture *capture, size_t most) {
    size_t left = capture->count - capture->heard, some = most < left ? most : left;
    uint32_t number = hear(line, capture->bytes + capture->heard, some);
    capture->heard += some;
    if (number != 0) {
        say_text("hear gave "), say_number(number), say_text("\n");
        capture->heard = capture->count;
    }
    return capture->heard < capture->count;
}

/* Bytes that wait already when README's lines are called, where there is room for them. */
static void ahead(uint32_t line, struct capture *capture, size_t most) {
    size_t left = capture->count - capture->heard, some = most < left ? most : left;
    if (espandim_deliver(&station, line, capture->bytes + capture->heard, some) == ESPANDIM_DONE) {
        capture->heard += some;
    }
}

/* Numbers below a bound, from a fixed beginning. */
static uint32_t drawn;
static uint32_t draw(uint32_t bound) {
    drawn = drawn * 1103515245u + 12345u;
    return (drawn >> 16) % bound;
}

static void each(struct capture *capture) {
    uint32_t size, run;
    for (size = 1; size <= 300; size++) {
        uint32_t line = size % ESPANDIM_LINES;
        say_text("chunks of "), say_number(size), say_text("\n");
        again();
        begin_with(line, capture);
        while (next(line, capture, size)) {
        }
    }
    for (run = 1; run <= 30; run++) {
        uint32_t line = run % ESPANDIM_LINES;
        say_text("chunks of mixed sizes, "), say_number(run), say_text("\n");
        drawn = run;
        again();
        begin_with(line, capture);
        do { /* in every other run bytes wait already, so that a delivery may find no room at first */
            if (run % 2 == 0) {
                ahead(line, capture, draw(ESPANDIM_INBOX + 1));
            }
        } while (next(line, capture, draw(600)));
    }
}

static void all_eight(void) {
    uint32_t line;
    int more = 1;
    again();
    for (line = 0; line < ESPANDIM_LINES; line++) {
        begin_with(line, &captures[line]);
    }
    while (more) {
        more = 0;
        for (line = 0; line < ESPANDIM_LINES; line++) {
            ahead(line, &captures[line], draw(ESPANDIM_INBOX + 1)); /* so that a round has several lines to serve */
        }
        for (line = 0; line < ESPANDIM_LINES; line++) {
            more |= next(line, &captures[line], draw(600));
        }
    }
}

static void words(void) {
    uint32_t number;
    for (number = 0; number <= 22; number++) {
        uint32_t asked = number <= 21 ? number : 4294967295u;
        say_number(asked), say(" ", 1), say_text(espandim_words(asked)), say_text("\n");
    }
}

static int wrong;
static void holds(int what, const char *text) {
    if (!what) {
        say_text("not so: "), say_text(text), say_text("\n");
        wrong = 1;
    }
}

/* A content of each number that a line answers for a whole group, 7 apart, and its place (M-104 of document 02). */
static const struct judged {
    uint32_t mode;
    const char *content;
    uint32_t number;
    size_t place;
} judged[] = {
    {ESPANDIM_STANDARD, "URMS1\t230\t?", ESPANDIM_ACCEPTED, 0},
    {ESPANDIM_STANDARD, "URMS1 230\t?", ESPANDIM_MISSHAPEN, 0},
    {ESPANDIM_STANDARD, "URMS1\t230\t6", ESPANDIM_CHECK_WRONG, 0},
    {ESPANDIM_BUSINESS, "PAPP 00750 -", ESPANDIM_LABEL_UNKNOWN, 0},
    {ESPANDIM_STANDARD, "SMAXSN\t01200\t?", ESPANDIM_STAMP_WRONG, 7},
    {ESPANDIM_STANDARD, "DATE\tH090229000000\t\t7", ESPANDIM_STAMP_WRONG, 5},
    {ESPANDIM_BUSINESS, "PA1MN 123456kW T", ESPANDIM_WIDTH_WRONG, 0},
    {ESPANDIM_STANDARD, "STGE\t003a0001\tZ", ESPANDIM_KIND_WRONG, 8},
    {ESPANDIM_STANDARD, "SMAXSN\tH081225223518\t012o0\t6", ESPANDIM_KIND_WRONG, 24},
    {ESPANDIM_HISTORIC, "PAPP 0075a ^", ESPANDIM_KIND_WRONG, 9},
    {ESPANDIM_BUSINESS, "PA1_s 123456kW K", ESPANDIM_KIND_WRONG, 11},
    {ESPANDIM_BUSINESS, "TARIFDYN NACTIF V", ESPANDIM_KIND_WRONG, 9},
};

/* A character as a sound wire byte: the top bit makes the count of ones even. */
static uint8_t sound(uint8_t character) {
    uint32_t bit, ones = 0;
    for (bit = 0; bit < 7; bit++) {
        ones += character >> bit & 1u;
    }
    return (uint8_t)(character | (ones % 2) << 7);
}

/* What line 4 of a station of its own answers to the group with this content: its entry on the sheet. */
static const uint8_t *entry_of(const struct judged *group, uint8_t *sheet) {
    static const uint8_t stx = 0x82, lf = 0x0A, cr = 0x8D;
    uint8_t counts[ESPANDIM_LINES];
    size_t i;
    again();
    espandim_open(&station, 4, group->mode);
    espandim_deliver(&station, 4, &stx, 1);
    espandim_deliver(&station, 4, &lf, 1);
    for (i = 0; group->content[i] != 0; i++) {
        uint8_t byte = sound((uint8_t)group->content[i]);
        espandim_deliver(&station, 4, &byte, 1);
    }
    espandim_deliver(&station, 4, &cr, 1);
    espandim_round(&station, sheet, ESPANDIM_SMALLEST_SHEET, counts);
    return espandim_entry(sheet, 4);
}

/* The place that judging and an entry tell. */
static void places_told(void) {
    static uint8_t sheet[ESPANDIM_SMALLEST_SHEET];
    static const uint8_t accepted[] = {ESPANDIM_ACCEPTED, 5, 0, 3}, refused[] = {ESPANDIM_KIND_WRONG, 0, 0, 125};
    size_t i;
    for (i = 0; i < sizeof judged / sizeof judged[0]; i++) {
        const struct judged *group = &judged[i];
        const uint8_t *entry = entry_of(group, sheet);
        size_t stretches[6], place = 77, count = 0;
        while (group->content[count] != 0) {
            count++;
        }
        holds(espandim_judge(group->mode, (const uint8_t *)group->content, count, stretches, &place) == group->number,
              "the number of a group");
        holds(place == group->place, "the place of a group, also where it is 0");
        holds(entry && entry[0] == group->number && espandim_place(entry) == group->place, "the place of an entry");
        holds(entry && (entry[0] == 1 || (entry[1] == 0 && entry[2] == 0)), "the second and third byte of an entry");
    }
    holds(espandim_place(accepted) == 0, "the length of the data is no place");
    holds(espandim_place(refused) == 125, "the fourth byte is the place");
}

/* Hands one byte to line 2, and gives what it answers, or a null pointer. */
static const uint8_t *answer_to(uint8_t byte, uint8_t *sheet) {
    uint8_t counts[ESPANDIM_LINES];
    holds(espandim_deliver(&station, 2, &byte, 1) == ESPANDIM_DONE, "one byte is not refused");
    espandim_round(&station, sheet, ESPANDIM_SMALLEST_SHEET, counts);
    return espandim_entry(sheet, 2);
}

/* Wire bytes, and for each of them the number and the frame number of its answer (M-108 of document 02), or zeros. */
static const struct numbered {
    uint8_t byte, number;
    uint16_t frame;
} numbered[] = {
    {0x02, 0, 0},                          /* a damaged STX outside is none */
    {0x82, 0, 0},                          /* the first frame */
    {0x8D, 0, 0},                          /* a flaw */
    {0x03, ESPANDIM_FRAME_FLAWED, 1},      /* the frame that it ends */
    {0x82, 0, 0},                          /* the second */
    {0x82, ESPANDIM_FRAME_RESTARTED, 3},   /* STX in a frame: the new number */
    {0x0A, 0, 0},                          /* a group */
    {0x02, 0, 0},                          /* a damaged STX in it is none */
    {0x0A, ESPANDIM_GROUP_RESTARTED, 3},   /* the frame that it came in */
    {0x8D, ESPANDIM_MISSHAPEN, 3},         /* a refused group too: it is empty */
    {0x0A, 0, 0},                          /* a group again */
    {0x82, ESPANDIM_FRAME_RESTARTED, 4},   /* STX in a group: the new number */
    {0x02, 0, 0},                          /* a damaged STX in a frame is none, and a flaw */
    {0x84, ESPANDIM_FRAME_INTERRUPTED, 4}, /* the frame that it ends */
    {0x03, 0, 0},                          /* outside of every frame nothing is answered */
    {0x82, 0, 0},                          /* the fifth */
    {0x03, ESPANDIM_FRAME_SOUND, 5},
};

/* The frame number that an entry tells. */
static void frames_told(void) {
    static uint8_t sheet[ESPANDIM_SMALLEST_SHEET];
    static const uint8_t told[] = {ESPANDIM_FRAME_SOUND, 0, 0, 0, 0x34, 0x12}, last[] = {14, 0, 0, 8, 0xFF, 0xFF};
    const uint8_t *entry;
    uint32_t frame;
    size_t i;
    holds(espandim_frame(told) == 0x1234 && espandim_frame(last) == 65535, "the low byte of the number is the first");
    holds(espandim_text(told) == told + 6, "the text is behind the number");
    again();
    espandim_open(&station, 2, ESPANDIM_STANDARD);
    for (i = 0; i < sizeof numbered / sizeof numbered[0]; i++) {
        const struct numbered *one = &numbered[i];
        entry = answer_to(one->byte, sheet);
        holds(one->number == 0 ? entry == 0 : entry && entry[0] == one->number && espandim_frame(entry) == one->frame,
              "the frame number of an entry");
    }

    /* A refused opening keeps the number, and every other sets it to 0. */
    holds(espandim_open(&station, 2, 3) == ESPANDIM_MODE_UNKNOWN, "an opening in mode 3 is 19");
    answer_to(0x82, sheet);
    entry = answer_to(0x03, sheet);
    holds(entry && espandim_frame(entry) == 6, "a refused opening keeps the frame number");
    espandim_open(&station, 2, ESPANDIM_HISTORIC);
    answer_to(0x82, sheet);
    entry = answer_to(0x03, sheet);
    holds(entry && espandim_frame(entry) == 1, "the first frame behind an opening has 1");

    /* 65,535 is followed by 0. */
    for (frame = 2; frame <= 65537; frame++) {
        answer_to(0x82, sheet);
        entry = answer_to(0x03, sheet);
        holds(entry && espandim_frame(entry) == (frame < 65536 ? frame : frame - 65536), "each frame has one more");
    }
}

/* Whether an entry is this one, of so many bytes, with this frame number in place of the one that stands there. */
static int told_as(const uint8_t *entry, const uint8_t *expected, size_t count, uint16_t frame) {
    size_t i;
    for (i = 0; entry && i < count; i++) {
        if (i != 4 && i != 5 && entry[i] != expected[i]) {
            return 0;
        }
    }
    return entry && espandim_frame(entry) == frame;
}

/* Back on its feet after noise (M-113 of document 02). Line 2 hears a flaw, a group that breaks off behind a damaged byte,
 * and document 01's whole case; then line 5 is opened and hears the case alone, in one piece. What both must answer behind
 * the STX is document 01's: the group, and 2, since STX clears the flaw. At the STX line 2 has 5 and line 5 nothing. */
static void after_noise(void) {
    static const uint8_t noise[] = {0x82, 0x8D, 0x0A, 0x55, 0x52};
    static const uint8_t whole[] = {0x82, 0x0A, 0x55, 0xD2, 0x4D, 0x53, 0xB1, 0x09,
                                    0xB2, 0x33, 0x30, 0x09, 0x3F, 0x8D, 0x03};
    static const uint8_t group[] = {1, 5, 0, 3, 0, 0, 'U', 'R', 'M', 'S', '1', '2', '3', '0'};
    static const uint8_t ended[] = {2, 0, 0, 0, 0, 0}, restarted[] = {5, 0, 0, 0, 0, 0};
    static uint8_t sheet[ESPANDIM_SMALLEST_SHEET];
    uint8_t counts[ESPANDIM_LINES];
    size_t i;
    again();
    espandim_open(&station, 2, ESPANDIM_STANDARD);
    for (i = 0; i < sizeof noise; i++) {
        holds(answer_to(noise[i], sheet) == 0, "a group that breaks off has no answer");
    }
    holds(told_as(answer_to(whole[0], sheet), restarted, sizeof restarted, 2), "5 at the STX, with the new number");
    for (i = 1; i < sizeof whole - 2; i++) {
        holds(answer_to(whole[i], sheet) == 0, "a group has no answer before its end");
    }
    holds(told_as(answer_to(whole[i], sheet), group, sizeof group, 2), "the group behind noise");
    holds(told_as(answer_to(whole[i + 1], sheet), ended, sizeof ended, 2), "the end of the frame behind noise");

    espandim_open(&station, 5, ESPANDIM_STANDARD);
    espandim_deliver(&station, 5, whole, sizeof whole);
    espandim_round(&station, sheet, sizeof sheet, counts);
    holds(counts[5] == sizeof whole - 1, "a turn takes all up to the group's CR, as the STX has no answer");
    holds(told_as(espandim_entry(sheet, 5), group, sizeof group, 1), "the group on a line just opened");
    espandim_round(&station, sheet, sizeof sheet, counts);
    holds(told_as(espandim_entry(sheet, 5), ended, sizeof ended, 1), "the end of the frame on a line just opened");
}

/* What espandim.h says, beside the calls' own contracts. */
static void helpers(void) {
    static uint8_t sheet[ESPANDIM_SMALLEST_SHEET], full[65536], counts[ESPANDIM_LINES];
    static const uint32_t none[] = {8, 9, 255, 256, 65536, 2147483648u, 4294967295u};
    static const uint8_t pjourf[] = "PJOURF+1", group[] = {0x82, 0x0A, 0x8D, 0x03};
    uint8_t stx[ESPANDIM_INBOX + 1], data[98], written[ESPANDIM_MOST_WRITTEN];
    uint32_t line, i, rounds;
    size_t count;

    for (i = 0; i < sizeof full; i++) {
        full[i] = 0xFF;
    }
    for (i = 0; i < sizeof none / sizeof none[0]; i++) {
        holds(espandim_entry(full, none[i]) == 0, "a line of 8 or more has no entry");
    }
    for (line = 0; line < ESPANDIM_LINES; line++) {
        holds(espandim_entry(sheet, line) == 0, "a sheet of zeros has no entry");
        holds(espandim_entry(full, line) == full + 65535, "an offset of 65,535");
    }

    /* An entry for each line, of 6 bytes and of 8 and 98 characters: most offsets need their high byte. */
    again();
    for (line = 0; line < ESPANDIM_LINES; line++) {
        for (i = 0; i < sizeof data; i++) {
            data[i] = (uint8_t)('a' + line);
        }
        holds(espandim_write(1, pjourf, 8, data, 0, data, 98, written, sizeof written, &count) == 0 && count == 111,
              "the longest group has 111 bytes");
        espandim_open(&station, line, 1);
        espandim_deliver(&station, line, group, 1);
        espandim_deliver(&station, line, written, count);
    }
    /* 24 bytes, and eight entries of 6 bytes and a content: a sheet with one byte less is refused, and all waits on. */
    holds(ESPANDIM_SMALLEST_SHEET == 24 + ESPANDIM_LINES * (6 + ESPANDIM_MOST_CONTENT), "the smallest sheet");
    holds(espandim_round(&station, sheet, sizeof sheet - 1, counts) == ESPANDIM_SHEET_SHORT, "1,095 bytes are 18");
    holds(espandim_idle(counts), "and nothing was taken");
    holds(espandim_round(&station, sheet, sizeof sheet, counts) == ESPANDIM_DONE, "1,096 bytes are not refused");
    holds(!espandim_idle(counts), "64 bytes of each were taken");
    espandim_round(&station, sheet, sizeof sheet, counts);
    for (line = 0; line < ESPANDIM_LINES; line++) {
        const uint8_t *entry = espandim_entry(sheet, line);
        holds(entry == sheet + 24 + 112 * line, "entries of 112 bytes, from byte 24 on");
        holds(entry && entry[0] == 1 && entry[1] == 8 && entry[2] == 0 && entry[3] == 98 && entry[4] == 1 &&
                  entry[5] == 0 && entry[6] == 'P' && entry[111] == 'a' + line,
              "the entry has label and data of the line, and its frame number");
        holds(entry && espandim_frame(entry) == 1 && espandim_text(entry) == entry + 6, "the first frame, and the text");
    }
    espandim_round(&station, sheet, sizeof sheet, counts);
    holds(espandim_idle(counts), "all of it was taken");
    for (line = 0; line < ESPANDIM_LINES; line++) {
        holds(espandim_entry(sheet, line) == 0, "no answer, no entry");
        counts[line] = 1;
        holds(!espandim_idle(counts), "one count that is not 0");
        counts[line] = 0;
    }

    /* A full inbox that answers each byte is taken within 256 rounds; 257 bytes are refused however often. */
    for (i = 0; i < sizeof stx; i++) {
        stx[i] = 0x82;
    }
    again();
    espandim_open(&station, 6, 0);
    hear(6, stx, 1);
    for (i = 0; i < 3; i++) {
        holds(espandim_deliver(&station, 6, stx, ESPANDIM_INBOX + 1) == ESPANDIM_NO_ROOM, "257 bytes are 15");
        espandim_round(&station, sheet, sizeof sheet, counts);
        holds(espandim_idle(counts), "nothing waits");
    }
    holds(espandim_deliver(&station, 6, stx, ESPANDIM_INBOX) == ESPANDIM_DONE, "256 bytes are not refused");
    for (rounds = 0; rounds < 1000; rounds++) {
        const uint8_t *entry;
        espandim_round(&station, sheet, sizeof sheet, counts);
        if (espandim_idle(counts)) {
            break;
        }
        entry = espandim_entry(sheet, 6);
        holds(counts[6] == 1 && entry && entry[0] == ESPANDIM_FRAME_RESTARTED, "one byte a round, and its answer");
        holds(entry && espandim_frame(entry) == 2 + rounds, "with the new frame number: the first STX had 1");
    }
    holds(rounds == 256, "256 rounds take something, and the next does not");

    /* Memory that no call made: an open line with a mode that is none. */
    again();
    station.marks[2][0] = 1;
    station.marks[2][1] = 7;
    espandim_deliver(&station, 2, group, sizeof group);
    espandim_round(&station, sheet, sizeof sheet, counts);
    holds(espandim_entry(sheet, 2) && espandim_entry(sheet, 2)[0] == ESPANDIM_MODE_UNKNOWN, "an entry 19");
}

static int is(const char *one, const char *other) {
    while (*one != 0 && *one == *other) {
        one++, other++;
    }
    return *one == *other;
}

int main(int count, char **arguments) {
    const char *what = count > 1 ? arguments[1] : "";
    int files = count - 2, i;
    if (files > ESPANDIM_LINES) {
        return 2;
    }
    for (i = 0; i < files; i++) {
        if (!load(&captures[i], arguments[2 + i])) {
            return 2;
        }
    }
    if (is(what, "each") && files == 1) {
        each(&captures[0]);
    } else if (is(what, "eight") && files == ESPANDIM_LINES) {
        all_eight();
    } else if (is(what, "stripped") && files == 1) {
        size_t at;
        for (at = 0; at < captures[0].count; at++) {
            captures[0].bytes[at] &= 0x7F;
        }
        begin_with(0, &captures[0]);
        while (next(0, &captures[0], 64)) {
        }
    } else if (is(what, "words") && files == 0) {
        words();
    } else if (is(what, "helpers") && files == 0) {
        helpers();
        places_told();
        frames_told();
        after_noise();
        length = wrong ? length : 0; /* what was answered on the way says nothing */
    } else {
        return 2;
    }
    flush();
    return wrong;
}
