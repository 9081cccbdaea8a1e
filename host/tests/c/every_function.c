/* Calls every function of stephylax.h, in C and in C++, and prints every field of every answer. */
#include <stdio.h>
#include <string.h>
#include "stephylax.h"

static const char zero[] = "0\n0\n0\n0\n0\n0\n0\n0\n0\n0\n0\n0\n";
static const uint8_t *bytes(const char *text) { return (const uint8_t *)text; }
static void line(const char *name, uint64_t refusal, int64_t figure) {
    printf("\n%s %llu %lld", name, (unsigned long long)refusal, (long long)figure);
}
static void number(int64_t n) { printf(" %lld", (long long)n); }

/* A body that stands still at a distance in AU, as text and packed. */
static size_t body(const char *radius, uint8_t *packed, size_t room) {
    char text[200];
    int n = snprintf(text, sizeof text, "%s1\n%s 0.00000000000 0.00000000000\n0\n0\n0\n0\n0\n", zero, radius);
    stephylax_written w = stephylax_read_text(bytes(text), (size_t)n, packed, room);
    line("read_text", w.refusal, w.figure), number(w.length);
    return (size_t)w.length;
}

static void calendar(int64_t year, int64_t month, int64_t day, int64_t ms) {
    stephylax_day n = stephylax_day_of_date(year, month, day);
    line("day_of_date", n.refusal, n.figure), number(n.day_number);
    stephylax_date d = stephylax_date_of_day(n.day_number - 1);
    line("date_of_day", d.refusal, d.figure), number(d.year), number(d.month), number(d.day), number(d.ms);
    stephylax_instant i = stephylax_instant_of_date(year, month, day, ms);
    line("instant_of_date", i.refusal, i.figure), number(i.t);
    d = stephylax_date_of_instant(i.t);
    line("date_of_instant", d.refusal, d.figure), number(d.year), number(d.month), number(d.day), number(d.ms);
}

static void answer(stephylax_text state) {
    stephylax_answer a = stephylax_text_answer(state);
    line("text_answer", a.refusal, a.figure), number(a.length), number(a.accepted);
}

static void pieces(uint8_t *packed, size_t room) {
    stephylax_text state = stephylax_text_start();
    answer(state);
    state = stephylax_text_piece(state, bytes(zero), 24, packed, room);
    state = stephylax_text_piece(state, bytes(zero), 12, packed, room);
    answer(state);
    answer(stephylax_text_end(state, packed, room));
    answer(stephylax_text_end(stephylax_text_start(), packed, room));
}

/* A mended text: the answer, all numbers of the list and the last bytes of the output. */
static void mended(const char *text, size_t numbers) {
    uint8_t out[40];
    uint64_t changes[8];
    memset(out, '.', sizeof out);
    for (int i = 0; i < 8; i++) changes[i] = 9;
    stephylax_mended m = stephylax_mend(bytes(text), strlen(text), out, sizeof out, changes, numbers);
    line("mend", m.refusal, m.figure), number(m.length), number(m.changes), number((int64_t)m.verdict), number(m.place);
    for (int i = 0; i < 8; i++) number((int64_t)changes[i]);
    for (int i = 36; i < 40; i++) number(out[i]);
}

static void standing(stephylax_published state) {
    stephylax_answer a = stephylax_published_answer(state);
    line("published_answer", a.refusal, a.figure), number(a.length), number(a.accepted);
}

/* A published file of two lines: the heading of a block, and its only term. */
static void published(int coordinate) {
    char file[400];
    uint8_t packed[100] = {0};
    size_t room = sizeof packed;
    int n = snprintf(file, sizeof file, "%17s4%23s%d%17s0%7d\n%10d%69s%18s%14s%20s\n", "", "", coordinate, "", 1, 1, "",
                     "0.40000000000", "0.00000000000", "0.00000000000");
    stephylax_written w = stephylax_read_published(bytes(file), (size_t)n, packed, room);
    line("read_published", w.refusal, w.figure), number(w.length);
    stephylax_published state = stephylax_published_start();
    standing(state);
    state = stephylax_published_piece(state, bytes(file), 100, packed, room);
    standing(state);
    standing(stephylax_published_end(state, packed, room));
    state = stephylax_published_piece(state, bytes(file) + 100, (size_t)n - 100, packed, room);
    standing(state);
    standing(stephylax_published_end(state, packed, room));
    for (int i = 0; i < 22; i++) number(packed[i]);
}

static void series(const uint8_t *packed, size_t n, int64_t t) {
    uint8_t text[200];
    stephylax_checked c = stephylax_check(packed, n);
    line("check", c.refusal, c.figure), number(c.terms), number(c.wide);
    stephylax_written w = stephylax_print(packed, n, text, sizeof text);
    line("print", w.refusal, w.figure), number(w.length);
    stephylax_coordinates l = stephylax_coordinates_at(packed, n, t);
    line("coordinates_at", l.refusal, l.figure), number(l.longitude), number(l.latitude), number(l.radius);
}

static void places(const uint8_t *planet, size_t np, const uint8_t *earth, size_t ne, int64_t t) {
    uint64_t runs[4] = {7, 7, 7, 7};
    stephylax_place p = stephylax_apparent_place(planet, np, earth, ne, t);
    line("apparent_place", p.refusal, p.figure), number(p.right_ascension), number(p.declination), number(p.distance);
    stephylax_mount m = stephylax_mount_place(planet, np, earth, ne, t);
    line("mount_place", m.refusal, 0), printf(" %.17g %.17g %.17g", m.right_ascension, m.declination, m.distance);
    stephylax_written w = stephylax_sun_list(planet, np, earth, ne, t, 10, 60, runs, 4);
    line("sun_list", w.refusal, w.figure), number(w.length), number((int64_t)runs[0]), number((int64_t)runs[1]);
}

int main(void) {
    uint8_t planet[100], earth[100], far[100];
    calendar(2019, 11, 11, 5);
    calendar(1582, 10, 10, 5);
    calendar(9999, 12, 31, 5);
    pieces(planet, sizeof planet);
    mended("0\r\n\n0\n0\n0\n0\n0\n0\n0\n0\n0\n0\n0\n0\n0\n0\n0\n0\n0\n", 8);
    mended("0 \t\n0\t5\n", 8);
    mended("0 \t\n0\t5\n", 5);
    published(3);
    published(4);
    size_t np = body("0.40000000000", planet, sizeof planet);
    size_t ne = body("1.00000000000", earth, sizeof earth);
    series(planet, np, 1);
    series(planet, 3, 1);
    size_t nf = body("50000.00000000000", far, sizeof far);
    series(far, nf, 126230400000000);
    nf = body("99999.00000000000", far, sizeof far);
    series(far, nf, -63115200000001);
    places(planet, np, earth, ne, 0);
    places(earth, ne, earth, ne, 0);
    return printf("\n") < 0;
}
