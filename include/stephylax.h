/*
 * stephylax.h: places of planets, and the minutes when one stands too near the Sun, from a proved library.
 *
 * Every function takes every input and comes to an end. An answer has `refusal` 0; a refusal has its number there and what
 * comes with it in `figure`. Fields that an answer does not use are 0. A refusal leaves the lent memory as it was, unless
 * said otherwise below; a success leaves untouched what lies past its output. Every function is marked so that a
 * compiler warns where its answer is dropped. Nothing has to be checked beforehand but this:
 *
 *   Slices    A slice is a pointer and a length. The pointer must not be NULL, is aligned for its elements, and is good for
 *             that many of them; with length 0 any such pointer does (NULL does not). An output must not overlap another slice
 *             of the call; it need not be initialised. Nobody else writes to lent memory while a call runs.
 *   Stack     Measured on x86-64, not proved: stephylax_apparent_place, _mount_place and _sun_list take 410 kB (two tables of
 *             terms of fixed size), _coordinates_at 210 kB, _check and _print 200 kB, the others less than 5 kB. 512 kB do for all.
 *   Threads   The functions keep nothing between calls and allocate nothing; any number of them may run at once.
 *
 *   no.  given exactly when (enum stephylax_refusal names each)               figure
 *    1   year, month, day (the skipped days of 1582 too), ms or a day         first bad field, 1 to 4 in that order;
 *        number does not exist                                                5 for a day number
 *    2   the instant asked for, or the one that the light left at, is more    that instant
 *        than four millennia from 0
 *    3   no line goes on with this byte of a text or a published file         its offset
 *    4   a number is too large, a count is too large, or a packed number      offset *
 *        has more than nine groups
 *    5   the amplitudes of a block total more than their limit                offset *
 *    6   the terms so far are too coarse to be summed within 10^-6            offset *
 *    7   there is no room for the output                                      the room it wants, of a list of
 *                                                                             changes their number; for a text or
 *                                                                             a published file the offset *
 *    8   the input ended too early: before its 18 blocks did, a published     its length
 *        file inside a line or a block
 *    9   there is a byte more after the last block                            its offset
 *   10   a packed number is not in its shortest form                          offset *
 *   11   a place is not usable                                                the minute of a list, else 0
 *   12   the keep-out is not from 60 to 2,700 arcminutes, or the minutes      0
 *        are not from 1 to 1,440
 *   13   a heading of a published file is out of order, or its version is     offset *
 *        not 4, or there is no such block
 *   14   a running number of a published file does not come next              offset *
 *   17   the instant asked for, or the one that the light left at, is more    that instant; of a list the first
 *        than two millennia from 0, and a series of the call is not good      such one in the window
 *        for the wide range
 *
 * Offsets count bytes from 0 at the beginning of the whole input. The offset * of a text or a published file is that of the line
 * feed which ends the line, or its length where the end is refused; that of a packed series is that of the number's last byte (of the
 * ninth, if the number goes past nine groups).
 *
 * Units: t is in whole milliseconds of TD from 2000-01-01 12h, negative before, and at most 126,230,400,000,000 (four
 * millennia) from 0. Parts are 10^-11 radian or AU. "Rules" names the section of docs/RULES.md.
 *
 * Frames: apparent places, for the mount too, are in the frame of the star catalogues (FK5); coordinates and the Sun list are in that of
 * the theory.
 *
 * Range: every good series may be asked up to 63,115,200,000,000 (two millennia) from 0, that instant included, and beyond only if it is
 * good for the wide range: the amplitudes of none of its blocks total more than 50,000, half of what a block may have, and its terms are
 * so few and so small that over four millennia, too, they can be summed within 10^-6. stephylax_check tells which it is. A series that
 * is not good for the wide range is a good series all the same, and no function refuses it for that alone.
 */
#ifndef STEPHYLAX_H
#define STEPHYLAX_H

#include <stddef.h>
#include <stdint.h>

#ifdef __cplusplus
extern "C" {
#endif

/* Before each function: who drops its answer is warned, by GCC, Clang, C++17 and C23. */
#if defined(__cplusplus) && __cplusplus >= 201703L
#define STEPHYLAX_MUST_USE [[nodiscard]]
#elif defined(__STDC_VERSION__) && __STDC_VERSION__ >= 202311L
#define STEPHYLAX_MUST_USE [[nodiscard]]
#elif defined(__GNUC__)
#define STEPHYLAX_MUST_USE __attribute__((warn_unused_result))
#else
#define STEPHYLAX_MUST_USE
#endif

/* What a `refusal` is, by its number in the table above. */
enum stephylax_refusal {
    STEPHYLAX_ANSWERED = 0,
    STEPHYLAX_NO_SUCH_DATE = 1,
    STEPHYLAX_PAST_LIMIT = 2,
    STEPHYLAX_BAD_BYTE = 3,
    STEPHYLAX_OVER_LIMIT = 4,
    STEPHYLAX_TOTAL_OVER_LIMIT = 5,
    STEPHYLAX_TOO_COARSE = 6,
    STEPHYLAX_NO_ROOM = 7,
    STEPHYLAX_ENDED_EARLY = 8,
    STEPHYLAX_BYTE_AFTER_END = 9,
    STEPHYLAX_NOT_SHORTEST = 10,
    STEPHYLAX_NOT_USABLE = 11,
    STEPHYLAX_BAD_WINDOW = 12,
    STEPHYLAX_BAD_HEADING = 13,
    STEPHYLAX_BAD_NUMBER = 14,
    STEPHYLAX_TOO_FAR = 17
};

/* What was done to a byte of a mended text: the second of the two numbers that a change has. */
enum stephylax_change {
    STEPHYLAX_DROPPED = 0,
    STEPHYLAX_TAB_TO_SPACE = 1
};

/* The field of a date that does not exist: the figure of STEPHYLAX_NO_SUCH_DATE. */
enum stephylax_field {
    STEPHYLAX_YEAR = 1,
    STEPHYLAX_MONTH = 2,
    STEPHYLAX_DAY = 3,
    STEPHYLAX_TIME_OF_DAY = 4,
    STEPHYLAX_DAY_NUMBER = 5
};

typedef struct { uint64_t refusal; int64_t figure; int64_t day_number; } stephylax_day;
typedef struct { uint64_t refusal; int64_t figure; int64_t year, month, day, ms; } stephylax_date;
typedef struct { uint64_t refusal; int64_t figure; int64_t t; } stephylax_instant;
typedef struct { uint64_t refusal; int64_t figure; int64_t length; } stephylax_written;
typedef struct { uint64_t refusal; int64_t figure; int64_t length; int64_t accepted; } stephylax_answer;
typedef struct { uint64_t refusal; int64_t figure; int64_t terms; int64_t wide; } stephylax_checked;
typedef struct { uint64_t refusal; int64_t figure; int64_t longitude, latitude, radius; } stephylax_coordinates;
typedef struct { uint64_t refusal; int64_t figure; int64_t right_ascension, declination, distance; } stephylax_place;
typedef struct { uint64_t refusal; double right_ascension, declination, distance; } stephylax_mount;
typedef struct { uint64_t refusal; int64_t figure; int64_t length; int64_t changes; uint64_t verdict; int64_t place; } stephylax_mended;

/* The states of the readers of texts and of published files, given and returned by value. Their words are the library's own. */
typedef struct { uint64_t words[17]; } stephylax_text;
typedef struct { uint64_t words[31]; } stephylax_published;

/*
 * stephylax_day_of_date: noon day number of a date.
 *   Given     year, month, day      a date, Julian through 1582-10-04, Gregorian from 1582-10-15; the year 0 exists
 *   Returned  day_number            0 to 5,373,484
 *   Refused   1
 *   Range     years -4712 to 9999
 *   Rules     Calendar
 */
STEPHYLAX_MUST_USE
stephylax_day stephylax_day_of_date(int64_t year, int64_t month, int64_t day);

/*
 * stephylax_date_of_day: date of a noon day number.
 *   Given     day_number
 *   Returned  year, month, day      the one date that has this number; ms is 0
 *   Refused   1 (figure 5)
 *   Range     0 to 5,373,484
 *   Rules     Calendar
 */
STEPHYLAX_MUST_USE
stephylax_date stephylax_date_of_day(int64_t day_number);

/*
 * stephylax_instant_of_date: instant of a date and time of day.
 *   Given     year, month, day, ms  a date, and milliseconds since its midnight, 0 to 86,399,999
 *   Returned  t
 *   Refused   1, then 2
 *   Range     -2001-12-19 12h to 6000-01-31 12h
 *   Rules     Calendar
 */
STEPHYLAX_MUST_USE
stephylax_instant stephylax_instant_of_date(int64_t year, int64_t month, int64_t day, int64_t ms);

/*
 * stephylax_date_of_instant: date and time of day of an instant.
 *   Given     t
 *   Returned  year, month, day, ms
 *   Refused   2
 *   Range     |t| at most 126,230,400,000,000
 *   Rules     Calendar
 */
STEPHYLAX_MUST_USE
stephylax_date stephylax_date_of_instant(int64_t t);

/*
 * stephylax_read_text: a series text, whole, to its packed form.
 *   Given     text, n               the text
 *             packed, room          output
 *   Returned  length                bytes of the packed form, which stands at the beginning of `packed`
 *   Refused   the first of 3, 4, 5, 6, 7, 8, 9, with its offset; `packed` then holds the packed form of all lines before
 *   Range     4,096 terms a block, 8,192 a series; the packed form is shorter than the text
 *   Rules     Series, as text and packed; Refusals and what they leave
 */
STEPHYLAX_MUST_USE
stephylax_written stephylax_read_text(const uint8_t *text, size_t n, uint8_t *packed, size_t room);

/*
 * stephylax_text_start, _piece, _end, _answer: the same for a text that comes in pieces of any lengths, zero too.
 *   Given     state                 what the call before returned, from stephylax_text_start() on
 *             text, n               the next piece
 *             packed, room          output, the same buffer in all calls, unaltered between them
 *   Returned  the next state; from stephylax_text_answer what stands: `length` is what is packed so far, and `accepted`
 *             is 0 as long as more may come. After stephylax_text_end of a good text `accepted` is 1 and `length` that
 *             of its packed form. Only then is it a series: refusal 0 with accepted 0 is a text that has not ended
 *   Refused   as stephylax_read_text, with offsets from the beginning of the whole text; calls after a refusal or after
 *             the end repeat the answer and write nothing
 *   Range     any number of bytes that a size_t counts. A state that no call gave, another buffer or altered packed
 *             bytes are safe, but their answer is undecided
 *   Rules     Series, as text and packed; Refusals and what they leave
 */
STEPHYLAX_MUST_USE
stephylax_text stephylax_text_start(void);
STEPHYLAX_MUST_USE
stephylax_text stephylax_text_piece(stephylax_text state, const uint8_t *text, size_t n, uint8_t *packed, size_t room);
STEPHYLAX_MUST_USE
stephylax_text stephylax_text_end(stephylax_text state, uint8_t *packed, size_t room);
STEPHYLAX_MUST_USE
stephylax_answer stephylax_text_answer(stephylax_text state);

/*
 * stephylax_mend: a series text that a mail program has damaged, cleaned of what it added.
 *   Given     text, n               the text
 *             out, room             output: the clean text. It is never longer than the text
 *             changes, change_room  output, in numbers, two for each change: the offset in `text` of the byte that was changed, then 0
 *                                   where it was dropped or 1 where a tab became a space (enum stephylax_change). There is room for
 *                                   change_room / 2 changes, and no byte is changed twice: 2 * n numbers always do
 *   Returned  length                bytes of the clean text, which stands at the beginning of `out`
 *             changes               how many changes stand at the beginning of `changes`, in the order of their offsets
 *             verdict, place        what stephylax_read_text, with room enough, says of the clean text: 0 and the length of its packed
 *                                   form, or the number of its refusal, never 7, and its figure: an offset in the clean text, with 8 its
 *                                   length. A verdict is no refusal of this call
 *   Refused   7 alone: with the length of the clean text; else with the number of changes. Both outputs then are as they were
 *   Range     every text. Carriage returns, tabs and spaces that lead up to a line feed are dropped; where a line has no other byte, its
 *             line feed goes too; a tab anywhere else becomes a space. All other bytes stay. A text that stephylax_read_text accepts is
 *             clean already, and so is what this function wrote: both are given back as they are, without a change
 *   Rules     Mending
 */
STEPHYLAX_MUST_USE
stephylax_mended stephylax_mend(const uint8_t *text, size_t n, uint8_t *out, size_t room, uint64_t *changes, size_t change_room);

/*
 * stephylax_read_published: a published VSOP87D file, whole, to the packed form that its figures have as a text.
 *   Given     text, n               the file
 *             packed, room          output
 *   Returned  length                bytes of the packed form, which stands at the beginning of `packed`
 *   Refused   the first of 3, 13, 14, 4, 5, 6, 7, 8, 9, with its offset; `packed` then holds the packed form of all lines before
 *   Range     as stephylax_read_text; lines of any length. The packed form is shorter than the file, or has at most 18 bytes
 *   Rules     Published files; Refusals and what they leave
 */
STEPHYLAX_MUST_USE
stephylax_written stephylax_read_published(const uint8_t *text, size_t n, uint8_t *packed, size_t room);

/*
 * stephylax_published_start, _piece, _end, _answer: the same for a file that comes in pieces of any lengths, zero too.
 *   Given     state, text, n, packed, room   as stephylax_text_start, _piece, _end and _answer
 *   Returned  as they return. stephylax_published_end writes too: a 0 for each block after that of the last heading, all of them or
 *             none (7, with the length of the file)
 *   Refused   as stephylax_read_published; else as they refuse
 *   Range     as theirs
 *   Rules     Published files; Refusals and what they leave
 */
STEPHYLAX_MUST_USE
stephylax_published stephylax_published_start(void);
STEPHYLAX_MUST_USE
stephylax_published stephylax_published_piece(stephylax_published state, const uint8_t *text, size_t n, uint8_t *packed, size_t room);
STEPHYLAX_MUST_USE
stephylax_published stephylax_published_end(stephylax_published state, uint8_t *packed, size_t room);
STEPHYLAX_MUST_USE
stephylax_answer stephylax_published_answer(stephylax_published state);

/*
 * stephylax_check: whether packed bytes are a good series.
 *   Given     packed, n
 *   Returned  terms                 how many terms the series has
 *             wide                  1 if it is good for the wide range, else 0
 *   Refused   the first of 4, 5, 6, 8, 9, 10
 *   Store     series stored end to end, with nothing between them: give the bytes from where one begins to the end of the store.
 *             Refusal 9: the figure is the length of this series, and the next one begins so many bytes further on. Refusal 0: this is
 *             the last one. Any other: no whole series begins here (8: the bytes end too early for one). No other cutting gives series
 *             throughout. Other functions want a series' own bytes alone: with more they refuse 9. Give no bytes that were never
 *             written: eighteen zero bytes are a series too, one without terms
 *   Rules     Series, as text and packed; Refusals and what they leave
 */
STEPHYLAX_MUST_USE
stephylax_checked stephylax_check(const uint8_t *packed, size_t n);

/*
 * stephylax_print: a packed series to plain text, which stephylax_read_text packs to the same bytes.
 *   Given     packed, n
 *             text, room            output
 *   Returned  length                bytes of the text
 *   Refused   as stephylax_check, then 7 with the length of the whole text
 *   Rules     Series, as text and packed
 */
STEPHYLAX_MUST_USE
stephylax_written stephylax_print(const uint8_t *packed, size_t n, uint8_t *text, size_t room);

/*
 * stephylax_coordinates_at: heliocentric coordinates of a series at an instant.
 *   Given     packed, n, t
 *   Returned  longitude, latitude   parts of a radian; the longitude keeps its whole turns
 *             radius                parts of an AU
 *   Refused   2, then as stephylax_check, then 17
 *   Range     within 10^-6 (radian or AU) of the exact sum of the series
 *   Rules     Working cosine and sums
 */
STEPHYLAX_MUST_USE
stephylax_coordinates stephylax_coordinates_at(const uint8_t *packed, size_t n, int64_t t);

/*
 * stephylax_apparent_place: apparent equatorial place of a planet, seen from Earth.
 *   Given     planet, np, earth, ne, t   both packed series
 *   Returned  right_ascension, declination   hundredths of an arcsecond
 *             distance                       parts of an AU, at t
 *   Refused   2, the planet's series, Earth's series, 17, 11, then 2, 17 and 11 at the earlier instant
 *   Range     both radii 0.1 to 64 AU, distance at least 0.1 AU and a sixteenth of the sum of both radii. The distance is that in this
 *             frame, by roundings a few parts off the one that a list tests: at these limits one may be refused 11 and the other not
 *   Rules     Places, The frame of the catalogues
 */
STEPHYLAX_MUST_USE
stephylax_place stephylax_apparent_place(const uint8_t *planet, size_t np, const uint8_t *earth, size_t ne, int64_t t);

/*
 * stephylax_mount_place: the same as doubles for a mount.
 *   Given     planet, np, earth, ne, t
 *   Returned  right_ascension, declination   degrees: the whole number over 360000.0, rounded once
 *             distance                       AU: the whole number over 1e11, rounded once
 *   Refused   as stephylax_apparent_place, the number alone
 *   Rules     Places, The frame of the catalogues
 */
STEPHYLAX_MUST_USE
stephylax_mount stephylax_mount_place(const uint8_t *planet, size_t np, const uint8_t *earth, size_t ne, int64_t t);

/*
 * stephylax_sun_list: the minutes at which a planet stands too near the Sun.
 *   Given     planet, np, earth, ne      both packed series
 *             t0, minutes                minute j is t0 + 60,000 j, j from 0 to minutes - 1
 *             keep_out                   arcminutes
 *             runs, room                 output, in numbers; 1,440 always do
 *   Returned  length                     how many numbers: first and last minute of each run of listed minutes, ascending
 *   Refused   12, 2 (first, then last minute), the planet's series, Earth's series, 17 with the first instant beyond two millennia,
 *             11 at the first bad minute, 7 with the count of numbers it would need
 *   Range     every minute within keep_out by the exact sums is in a run, and none farther out than keep_out + 2
 *   Rules     Sun list
 */
STEPHYLAX_MUST_USE
stephylax_written stephylax_sun_list(const uint8_t *planet, size_t np, const uint8_t *earth, size_t ne,
                                     int64_t t0, int64_t minutes, int64_t keep_out, uint64_t *runs, size_t room);

#ifdef __cplusplus
}
#endif

#endif
