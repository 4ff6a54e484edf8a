/* The boundary of Espandim to C: eight meters' lines behind five functions, which are proved in Rattle.
 *
 * Link with crates/espandim/out/libespandim.a, which `rt lib` in crates/espandim makes for x86-64 Linux; of the C library it
 * needs memcpy and nothing else. The numbers are those of the table in document 01, the customer's scope page.
 * crates/espandim/src/lib.rt has the contracts: each answer, and every byte that is lent, is fixed for every input.
 * This header needs C11 or C++11, and nothing beyond them where there are a stddef.h and a stdint.h.
 *
 * The way to use it (README.md has the lines, which the gate runs): open each line once; deliver what comes off its wire, at
 * most 256 bytes at a time; after each delivery, refused or not, call rounds until all eight counts are 0; what was refused
 * by 15 is handed in again then.
 *
 * The port: eight data bits, no parity, one stop bit, and raw, so that nothing is translated. The top bit of each byte is
 * the meter's own parity bit, and is delivered with it. A port that is set to seven bits and even parity strips it: STX
 * comes as 0x02 instead of 0x82, no frame ever begins, and there is no answer at all. The speed is 9600 baud in standard
 * mode (document 001, 5.3.5) and 1200 in historic mode (document 003, 1.3.1.1; but a SAPHIR may be set to 9600). A
 * PME-PMI, business mode, is set to 1200, 2400, 4800, 9600 or 19200: to 1200 where nobody chose (document 003, 1.4.1),
 * mostly to 9600 (2.9.1); whoever listens has to try. On Linux, `stty -F /dev/ttyUSB0 raw -echo 9600 cs8 -parenb -cstopb`,
 * or with another speed; in the flags of termios: CS8 and CREAD set, and PARENB, CSTOPB, INPCK, ISTRIP, IGNPAR, PARMRK,
 * ICRNL, INLCR, IGNCR, IXON, IXOFF, ICANON, ECHO, ISIG, IEXTEN and OPOST not set.
 *
 * What the caller owes, since no proof can see to it:
 *  - No pointer is null, not even one to no bytes at all: hand in any address of your own with a length of 0.
 *  - A pointer is aligned for its type, and there is as much behind it as its type and the length beside it say, which
 *    counts bytes and is below 2 to the 63.
 *  - What may be written (a station, sheet, counts, buffer, stretches, place, written) overlaps nothing else that is handed
 *    in to the same call. Label, stamp and data may overlap each other.
 *  - Nobody else touches what is lent while the call runs. The functions keep no state of their own and no pointer:
 *    two stations can be used at the same time.
 *  - Header and archive are of the same version: an older header's station is too small for a newer archive.
 *  - A number of a line or a mode has 32 bits. C cuts a longer one before the call, and 4,294,967,296 arrives as 0: compare
 *    it before it is cut.
 *
 * A refused call changes no byte of a station, a sheet or a buffer. Counts, stretches, *place and *written are for results,
 * as the returned number is: every call sets them, a refused one to zeros, but *place to where a stamp or data went wrong.
 */
#ifndef ESPANDIM_H
#define ESPANDIM_H

#if defined(__has_include)
#if !__has_include(<stddef.h>) || !__has_include(<stdint.h>)
#define ESPANDIM_NO_HEADERS
#endif
#endif

#ifdef ESPANDIM_NO_HEADERS /* a bare compiler, as the kit's own: its own names (those of gcc and clang) of the same types */
typedef __SIZE_TYPE__ size_t;
typedef __UINT8_TYPE__ uint8_t;
typedef __UINT16_TYPE__ uint16_t;
typedef __UINT32_TYPE__ uint32_t;
#else
#include <stddef.h>
#include <stdint.h>
#endif

#ifdef __cplusplus
#define ESPANDIM_ASSERT static_assert
extern "C" {
#else
#define ESPANDIM_ASSERT _Static_assert
#endif

#define ESPANDIM_LINES 8             /* lines 0 to 7 */
#define ESPANDIM_INBOX 256           /* bytes that can wait on a line */
#define ESPANDIM_MOST_CONTENT 128    /* characters of a group's content */
#define ESPANDIM_SMALLEST_SHEET 1096 /* bytes of a sheet that can hold every round */
#define ESPANDIM_MOST_WRITTEN 130    /* bytes, enough for every group: LF, content and CR; the longest, PJOURF+1, has 111 */

/* The modes. Business mode is that of a PME-PMI meter (M-100 of document 02, the customer's later requests). */
#define ESPANDIM_HISTORIC 0 /* 34 labels */
#define ESPANDIM_STANDARD 1 /* 71 labels, of which 24 are stamped */
#define ESPANDIM_BUSINESS 2 /* 75 labels, none of them stamped: dates are data */

/* Document 01's numbers. 0 and 15 to 19 are those of calls; 1 to 14 those of a group or of an entry on a sheet. */
enum espandim_number {
    ESPANDIM_DONE = 0,
    ESPANDIM_ACCEPTED = 1,
    ESPANDIM_FRAME_SOUND = 2,
    ESPANDIM_FRAME_FLAWED = 3,
    ESPANDIM_FRAME_INTERRUPTED = 4,
    ESPANDIM_FRAME_RESTARTED = 5,
    ESPANDIM_GROUP_RESTARTED = 6,
    ESPANDIM_GROUP_DAMAGED = 7,
    ESPANDIM_TOO_LONG = 8,
    ESPANDIM_MISSHAPEN = 9,
    ESPANDIM_CHECK_WRONG = 10,
    ESPANDIM_LABEL_UNKNOWN = 11,
    ESPANDIM_STAMP_WRONG = 12,
    ESPANDIM_WIDTH_WRONG = 13,
    ESPANDIM_KIND_WRONG = 14,
    ESPANDIM_NO_ROOM = 15,
    ESPANDIM_LINE_UNKNOWN = 16,
    ESPANDIM_LINE_CLOSED = 17,
    ESPANDIM_SHEET_SHORT = 18,
    ESPANDIM_MODE_UNKNOWN = 19
};

/* What a number of the table means, in English; 20 is a listing's. Every other number has words too, the last ones here. */
static inline const char *espandim_words(uint32_t number) {
    static const char *const words[] = {
        "a call that is not refused",
        "group accepted",
        "frame ended, unflawed",
        "frame ended, flawed",
        "frame interrupted by EOT",
        "STX before the frame ended",
        "LF inside a group",
        "a damaged byte in the group",
        "content over 128",
        "no separators where they must be, or under 4 characters",
        "check character wrong",
        "label not in the mode's list",
        "stamp not right",
        "data not of the width",
        "a data character not of the kind",
        "inbox or lent buffer too short for all",
        "line number 8 or more",
        "delivery to a closed line",
        "sheet under 1,096 bytes",
        "mode not 0 to 2",
        "capture empty or not begun by H, S or P",
        "not a number of the table",
    };
    return words[number <= 20 ? number : 21];
}

/* The station: four arrays, with a row for each line, 3,184 bytes in all and none of them padding. It is there so that a
 * caller can set a station's memory aside, and copy it as a value; only the functions below read and write what is in it.
 * Memory of zeros is the station with all lines closed: `struct espandim_station station = {0};` or memset. No bytes are
 * a wrong station: whatever lies in it, each call has one fixed answer and stays inside. What is promised of answers
 * is promised of a station that was zeros and that only the functions below have written. */
struct espandim_station {
    uint8_t marks[ESPANDIM_LINES][6];   /* opened, mode, phase, flaw, damaged, overlong */
    uint16_t places[ESPANDIM_LINES][4]; /* length of the content, first and count of the waiting bytes, frame number */
    uint8_t contents[ESPANDIM_LINES][ESPANDIM_MOST_CONTENT];
    uint8_t inboxes[ESPANDIM_LINES][ESPANDIM_INBOX];
};

ESPANDIM_ASSERT(sizeof(struct espandim_station) == ESPANDIM_LINES * (6 + 2 * 4 + ESPANDIM_MOST_CONTENT + ESPANDIM_INBOX),
                "a station has no padding");
ESPANDIM_ASSERT(sizeof(size_t) == 8, "the archive is for a machine of 64 bits");

/* The functions of the archive, for bindings of other languages: each takes the four arrays by their addresses, of which
 * none may overlap another. In C, espandim_open, espandim_deliver and espandim_round below hand in those of a struct. */
uint32_t espandim_rows_open(uint8_t *marks, uint16_t *places, const uint8_t *contents, const uint8_t *inboxes,
                            uint32_t line, uint32_t mode);
uint32_t espandim_rows_deliver(const uint8_t *marks, uint16_t *places, const uint8_t *contents, uint8_t *inboxes,
                               uint32_t line, const uint8_t *bytes, size_t length);
uint32_t espandim_rows_round(uint8_t *marks, uint16_t *places, uint8_t *contents, const uint8_t *inboxes, uint8_t *sheet,
                             size_t length, uint8_t *counts);

/* Opens a line in a mode, whether it was open or not: its inbox is empty then, the line outside of every frame, and its
 * frame number 0. So open a line once: an opening before each delivery would drop what waits, and the frame that has begun.
 *   0   opened
 *   16  line is 8 or more
 *   19  mode is not 0 (historic), 1 (standard) or 2 (business)
 * The first that holds is given; 16 and 19 change nothing.
 *
 * Noise on a line needs no call (M-113 of document 02). Whatever bytes came, from the byte behind the next sound STX on the
 * line's answers are, in order, those of a line that was just opened in the same mode and got this STX first. Only the frame
 * numbers may differ, and the answer at the STX itself, 5 or none. The number goes on: an answer 5, or another number than
 * that of the answer before, shows where the line began anew; a frame whose STX was hit has no number of its own. To open
 * the line again is not needed, and drops what waits. */
static inline uint32_t espandim_open(struct espandim_station *station, uint32_t line, uint32_t mode) {
    return espandim_rows_open(station->marks[0], station->places[0], station->contents[0], station->inboxes[0], line, mode);
}

/* Adds bytes, as they came off the wire, to the inbox of an open line: all of them or none.
 *   0   added, also where there were none to add
 *   16  line is 8 or more
 *   17  the line is closed
 *   15  the inbox has no room for all of them: rounds make room, and the same bytes are handed in again then; more than
 *       256 (ESPANDIM_INBOX) are refused however often they are tried, so cut them
 * The first that holds is given; 16, 17 and 15 change nothing. */
static inline uint32_t espandim_deliver(struct espandim_station *station, uint32_t line, const uint8_t *bytes,
                                        size_t length) {
    return espandim_rows_deliver(station->marks[0], station->places[0], station->contents[0], station->inboxes[0], line,
                                 bytes, length);
}

/* Gives each open line its turn, which takes its oldest bytes, at most 64, up to one that gives an answer, and writes
 * the sheet:
 *   bytes 0 to 7    how many bytes the turn of each line took
 *   bytes 8 to 23   for each line where its entry starts, two bytes, low byte first; 0 where it has no answer
 *   from byte 24    the entries, each of six bytes and, for a group that is accepted, its text. For such a group: the
 *                   number 1; the lengths of label, stamp and data; the frame number, two bytes, low byte first; and label,
 *                   stamp and data. For all else: the number (2 to 14); two zeros, and a third one or, for 12 and 14, where
 *                   in the group's content it went wrong (espandim_place); and the frame number. In memory that no call
 *                   made a line's mode may be none: then its groups have the number 19
 * The bytes behind the last entry stay as they were. The counts are set to how many bytes each turn took.
 *   0   done
 *   18  the sheet has under 1,096 bytes: no byte was taken and nothing changed, the sheet included; the counts are zeros
 *
 * How often: until all eight counts are 0 (espandim_idle), after each delivery. A turn ends at each answer, so a noisy line
 * may give one byte a round, and one round for each delivery leaves answers behind and fills the inbox. Where bytes wait
 * on a line its turn takes at least one, so all 256 that can wait are taken within 256 rounds, and the 257th at the latest
 * takes nothing. More closely: n bytes that complete k answers are taken within n/64, rounded up, plus k rounds
 * (`taken-in-time` in crates/station/specs/Demands.antt). With rounds by the clock instead, as many are needed as bytes can
 * come on one line: 1,920 a second at 19200 baud, 960 at 9600, 120 at 1200. */
static inline uint32_t espandim_round(struct espandim_station *station, uint8_t *sheet, size_t length,
                                      uint8_t counts[ESPANDIM_LINES]) {
    return espandim_rows_round(station->marks[0], station->places[0], station->contents[0], station->inboxes[0], sheet,
                               length, counts);
}

/* Whether a round has taken nothing: all eight counts are 0. Where it was not refused, no byte waits on an open line then. */
static inline int espandim_idle(const uint8_t counts[ESPANDIM_LINES]) {
    uint32_t line;
    for (line = 0; line < ESPANDIM_LINES; line++) {
        if (counts[line] != 0) {
            return 0;
        }
    }
    return 1;
}

/* The entry of a line on a sheet that a round has written, or that is zeros yet: entry[0] is the number. Where that is 1,
 * entry[1], entry[2] and entry[3] are the lengths of label, stamp and data, which follow from entry + 6 on (espandim_text).
 * Every other entry has two zeros and its place there (espandim_place), and no text. In all of them entry[4] and entry[5]
 * are the frame number (espandim_frame). A null pointer where the line has no answer, or is 8 or more.
 *
 * Before M-108 of document 02 an entry had no frame number, and the text followed from entry + 4 on. A caller that still
 * reads there gets the two bytes of the number in front of the label, and not the last two of the data.
 *
 * A stamp is 13 characters, as they came: its season, then YYMMDDhhmmss. The season is H in winter and E in summer; h and e
 * are the same from a clock in degraded mode, which lost its time and was not set again yet, so that date and hour may be
 * anything. For DPM1 to DPM3 and FPM1 to FPM3 it is a space. In business mode there is no stamp: a date there is data,
 * DD/MM/YY hh:mm:ss, and so is each space inside the data and at their ends. */
static inline const uint8_t *espandim_entry(const uint8_t *sheet, uint32_t line) {
    uint32_t offset = line < ESPANDIM_LINES ? sheet[8 + 2 * line] + 256u * sheet[9 + 2 * line] : 0;
    return offset == 0 ? 0 : sheet + offset;
}

/* The place that an entry tells. For 12 and 14: where in the group's content, counted from 0, the stamp or the data went
 * wrong, which is what espandim_judge has for *place. For all other numbers 0, which it never is for these two. (The array
 * `places` of a station has other things in it.) */
static inline size_t espandim_place(const uint8_t *entry) {
    return entry[0] == ESPANDIM_ACCEPTED ? 0 : entry[3];
}

/* The frame number of an entry (M-108 of document 02): it tells which groups came together. A line's is 0 when it is opened,
 * and one more at every STX, outside, in a frame or in a group; a damaged one is no STX. 65,535 is followed by 0. Entries 2,
 * 3 and 4 have the number of the frame that they end, 5 has the new one, and all others that of the frame they came in.
 *
 * An entry comes only in a frame, so the first frame after an opening has 1, and the 65,536th is the first with 0. Of a line
 * that was not opened in between, two entries with the same number are of one frame, unless 65,536 frames or more began
 * between them. */
static inline uint16_t espandim_frame(const uint8_t *entry) {
    return (uint16_t)(entry[4] + 256u * entry[5]);
}

/* The text of an entry whose number is 1: label, stamp and data, one behind the other, as long as entry[1], entry[2] and
 * entry[3] say. Other entries have no text: what stands there is none of theirs. */
static inline const uint8_t *espandim_text(const uint8_t *entry) {
    return entry + 6;
}

/* Judges the content of one group, what stands between LF and CR, in characters with no parity bit. The stretches are
 * set to start and length of label, stamp and data, in the content itself; a label without a stamp has an empty one. *place
 * is set, for 12 and 14, to the index of the character where it went wrong (M-104 of document 02): content[*place].
 *   1   accepted
 *   19  mode is not 0 to 2
 *   8   over 128 characters
 *   9   under 4 characters, or the separators not where they must be
 *   10  check character wrong
 *   11  label not in the mode's list
 *   12  stamp not right (a small season letter, h or e, is right where H and E are); never in business mode. *place is the
 *       first character after the label's separator, whatever is wrong with the stamp: the final separator where nothing
 *       stands between them
 *   13  data not of the label's width; in business mode, shorter than the label's smallest or longer than its largest
 *   14  a character of the data not of the label's kind; in business mode, any other data that do not fit the label's fields.
 *       *place is the first wrong data character: in business mode the first that no fitting data of that length have there
 *       after the same beginning, and the first of all where no fitting data have that length
 * The first that holds is given; all but 1 leave six zeros in the stretches, and all but 12 and 14 leave 0 in *place. For
 * these two it is above 0, and below the length and so below 128. */
uint32_t espandim_judge(uint32_t mode, const uint8_t *content, size_t length, size_t stretches[6], size_t *place);

/* Writes LF, the content of the group with these fields, and CR, as sound wire bytes, at the start of the buffer, and
 * sets *written to how many bytes these are. The rest of the buffer stays as it was.
 *   0   written
 *   19  mode is not 0 to 2
 *   11  label not in the mode's list
 *   12  stamp not right, missing, or given to a label that has none, as none in business mode has
 *   13  data not of the label's width; business mode: as in judging
 *   14  a character of the data not of the label's kind; business mode: as in judging
 *   15  the buffer has no room for all of it
 * The first that holds is given; all but 0 leave the buffer as it was and 0 in *written. */
uint32_t espandim_write(uint32_t mode, const uint8_t *label, size_t label_length, const uint8_t *stamp, size_t stamp_length,
                   const uint8_t *data, size_t data_length, uint8_t *buffer, size_t buffer_length, size_t *written);

#ifdef __cplusplus
}
#endif
#undef ESPANDIM_ASSERT
#undef ESPANDIM_NO_HEADERS

#endif
