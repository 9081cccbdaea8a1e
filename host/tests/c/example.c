#include <stdio.h>
#include <stdlib.h>
#include "stephylax.h"
static uint8_t text[400000], mercury[120000], earth[120000];
static void answered(const char *what, uint64_t refusal, int64_t figure) {
    if (refusal == STEPHYLAX_ANSWERED) return;
    fprintf(stderr, "%s: refused %d (%lld)\n", what, (int)refusal, (long long)figure);
    exit(1);
}
static size_t load(const char *path, uint8_t *packed, size_t room) {
    FILE *file = fopen(path, "rb");
    if (!file) perror(path), exit(1);
    size_t n = fread(text, 1, sizeof text, file);
    if (!feof(file)) fprintf(stderr, "%s: not read to its end\n", path), exit(1);
    stephylax_written series = stephylax_read_text(text, n, packed, room);
    answered(path, series.refusal, series.figure);
    return fclose(file), (size_t)series.length;
}
int main(void) {
    size_t nm = load("data/vsop87d/mercury.txt", mercury, sizeof mercury);
    size_t ne = load("data/vsop87d/earth.txt", earth, sizeof earth);
    stephylax_instant start = stephylax_instant_of_date(2019, 11, 11, 0);
    answered("start", start.refusal, start.figure);
    uint64_t runs[1440];
    stephylax_written list = stephylax_sun_list(mercury, nm, earth, ne, start.t, 1440, 60, runs, 1440);
    answered("list", list.refusal, list.figure);
    for (int i = 0; i < list.length; i += 2) printf("shut from minute %d to %d\n", (int)runs[i], (int)runs[i + 1]);
    return 0;
}
