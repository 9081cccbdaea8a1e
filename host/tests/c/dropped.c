/* Drops the answer of every function of stephylax.h: a compiler has to warn at each line of `main` but its first and last. */
#include "stephylax.h"

int main(void) {
    static uint8_t a[1], b[1]; static uint64_t runs[1]; static stephylax_text state; static stephylax_published read;
    stephylax_day_of_date(1, 2, 3);
    stephylax_date_of_day(1);
    stephylax_instant_of_date(1, 2, 3, 4);
    stephylax_date_of_instant(1);
    stephylax_read_text(a, 1, b, 1);
    stephylax_text_start();
    stephylax_text_piece(state, a, 1, b, 1);
    stephylax_text_end(state, b, 1);
    stephylax_text_answer(state);
    stephylax_mend(a, 1, b, 1, runs, 1);
    stephylax_read_published(a, 1, b, 1);
    stephylax_published_start();
    stephylax_published_piece(read, a, 1, b, 1);
    stephylax_published_end(read, b, 1);
    stephylax_published_answer(read);
    stephylax_check(a, 1);
    stephylax_print(a, 1, b, 1);
    stephylax_coordinates_at(a, 1, 1);
    stephylax_apparent_place(a, 1, b, 1, 1);
    stephylax_mount_place(a, 1, b, 1, 1);
    stephylax_sun_list(a, 1, b, 1, 1, 1, 60, runs, 1);
    return 0;
}
