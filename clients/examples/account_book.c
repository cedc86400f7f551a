/* An account book: account_book FOLDER FROM TO AMOUNT moves an amount between two accounts, FOLDER alone lists them.
 * Account N is record N: its balance in cents. Each move is one transaction, so no crash leaves half of it. Account 0
 * is the world outside, which may owe. */
#include <stdio.h>
#include <stdlib.h>
#include <string.h>

#include "vulzhorn.h"

static vulzhorn_error add(vulzhorn *database, unsigned session, uint32_t account, long amount) {
    char text[VULZHORN_VALUE_ROOM + 1] = "0";
    vulzhorn_value value;
    vulzhorn_error error = vulzhorn_read(database, session, account, &value);
    if (error != VULZHORN_OK) return error;
    if (value.there) memcpy(text, value.octets, value.length);
    int length = snprintf(text, sizeof text, "%ld", strtol(text, NULL, 10) + amount);
    return vulzhorn_write(database, session, account, text, (size_t)length);
}

static vulzhorn_error transfer(vulzhorn *database, uint32_t from, uint32_t to, long amount) {
    unsigned session;
    vulzhorn_error error = vulzhorn_begin(database, &session);
    if (error != VULZHORN_OK) return error;
    error = add(database, session, from, -amount);
    if (error == VULZHORN_OK) error = add(database, session, to, amount);
    if (error == VULZHORN_OK) return vulzhorn_commit(database, session);
    vulzhorn_abort(database, session);
    return error;
}

static vulzhorn_error list(vulzhorn *database) {
    static vulzhorn_item items[VULZHORN_SCAN_MAX];
    vulzhorn_error error = VULZHORN_OK;
    unsigned session;
    size_t found;
    if ((error = vulzhorn_begin(database, &session)) != VULZHORN_OK) return error;
    for (uint32_t first = 0; error == VULZHORN_OK && first < 2048; first += VULZHORN_SCAN_MAX) {
        error = vulzhorn_scan(database, session, first, VULZHORN_SCAN_MAX, items, &found);
        for (size_t i = 0; i < found; i++)
            printf("%6u %12.*s\n", items[i].record, (int)items[i].value.length, (const char *)items[i].value.octets);
    }
    vulzhorn_abort(database, session);
    return error;
}

int main(int count, char **words) {
    const vulzhorn_options options = {.pages = 64, .groups = 64, .blocks = 400};
    vulzhorn *database;
    if (count != 2 && count != 5) return 2;
    vulzhorn_error error = vulzhorn_open(words[1], &options, &database);
    if (error == VULZHORN_OK && count == 2) error = list(database);
    if (error == VULZHORN_OK && count == 5)
        error = transfer(database, (uint32_t)atol(words[2]), (uint32_t)atol(words[3]), atol(words[4]));
    if (error != VULZHORN_OK)
        fprintf(stderr, "%s\n%s", vulzhorn_sentence(error), database ? vulzhorn_said(database) : "");
    vulzhorn_close(database);
    return error != VULZHORN_OK;
}
