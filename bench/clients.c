/* clients FOLDER get|set AHEAD COUNT: how many such requests a second the C client answers, 1 or 64 under way. */
#define _POSIX_C_SOURCE 200809L
#include <stdio.h>
#include <stdlib.h>
#include <string.h>
#include <time.h>

#include "vulzhorn.h"

enum { RECORDS = 2048, MOST = 64 };

static double seconds(void) {
    struct timespec now;
    clock_gettime(CLOCK_MONOTONIC, &now);
    return (double)now.tv_sec + 1e-9 * (double)now.tv_nsec;
}

int main(int count, char **words) {
    static vulzhorn_request requests[MOST];
    vulzhorn *database;
    if (count != 5 || vulzhorn_open(words[1], NULL, &database) != VULZHORN_OK) return 2;
    int ahead = atoi(words[3]) > 1 ? MOST : 1, all = atoi(words[4]), is_set = strcmp(words[2], "set") == 0;
    vulzhorn_error error = VULZHORN_OK;
    double begun = seconds();
    for (int number = 0; number < all + ahead; number++) {
        vulzhorn_request *request = &requests[number % ahead];
        if (number >= ahead && vulzhorn_wait(database, request) != VULZHORN_OK) error = request->error;
        if (number >= all) continue;
        if (is_set) vulzhorn_submit_set(database, request, (uint32_t)number % RECORDS, "01234567", 8);
        else vulzhorn_submit_get(database, request, (uint32_t)number % RECORDS);
    }
    printf("%.0f\n", all / (seconds() - begun));
    vulzhorn_close(database);
    return error != VULZHORN_OK;
}
