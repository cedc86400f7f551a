/* Tries the client over the program that FACE names: tests FOLDER, where FOLDER is empty. Tells what failed, and
 * 'N passed, M failed'. */
#define _POSIX_C_SOURCE 200809L
#include <pthread.h>
#include <signal.h>
#include <stdio.h>
#include <stdlib.h>
#include <string.h>
#include <time.h>
#include <unistd.h>

#include "vulzhorn.h"

enum { ACCOUNTS = 100, TRANSFERS = 5000, THREADS = 8, RECORDS = 64, AHEAD = 400, KILLS = 25, MANY = 50000 };

static int passed, failed;

static void check(bool right, const char *what) {
    if (right) passed++;
    else failed++;
    if (!right) printf("failed: %s\n", what);
}

static void must(vulzhorn_error error, const char *what) {
    if (error == VULZHORN_OK) return;
    printf("failed: %s: %s\n", what, vulzhorn_sentence(error));
    exit(1);
}

static vulzhorn *opened(const char *folder) {
    const vulzhorn_options options = {.pages = 16, .groups = 8, .blocks = 400, .pool = 4};
    vulzhorn *database;
    must(vulzhorn_open(folder, &options, &database), "opening");
    return database;
}

static uint32_t random_below(uint64_t *seed, uint32_t bound) {
    *seed = *seed * 6364136223846793005U + 1442695040888963407U;
    return (uint32_t)(*seed >> 33) % bound;
}

/* --- values */

static bool holds(vulzhorn *database, uint32_t record, const unsigned char *octets, size_t length) {
    vulzhorn_value value;
    return vulzhorn_get(database, record, &value) == VULZHORN_OK && value.there && value.length == length &&
           memcmp(value.octets, octets, length) == 0;
}

static void try_values(void) {
    unsigned char octets[VULZHORN_VALUE_ROOM + 10];
    vulzhorn_value value;
    vulzhorn *database = opened("values");
    size_t longest = 0;
    uint64_t seed = 1;
    for (size_t i = 0; i < sizeof octets; i++) octets[i] = (unsigned char)random_below(&seed, 256);
    while (vulzhorn_set(database, 2 * (uint32_t)longest, octets + longest % 7, longest) == VULZHORN_OK) longest++;
    check(longest == 201, "values of 0 to 200 octets are taken");
    for (size_t length = longest; length < sizeof octets; length++)
        check(vulzhorn_set(database, 0, octets, length) == VULZHORN_TOO_LONG, "a longer value is told to be too long");
    check(vulzhorn_set(database, 0, octets, SIZE_MAX / 2 + 1) == VULZHORN_TOO_LONG, "so is one beyond all memory");
    bool all = true;
    for (size_t length = 0; length < longest; length++)
        all = all && holds(database, 2 * (uint32_t)length, octets + length % 7, length);
    check(all, "values of each length are read as they were written");
    check(vulzhorn_get(database, 511, &value) == VULZHORN_OK && !value.there, "a record without a value");
    check(vulzhorn_get(database, 512, &value) == VULZHORN_NO_RECORD, "no such record");
    check(vulzhorn_get(database, UINT32_MAX, &value) == VULZHORN_NO_RECORD, "no such record by far");
    vulzhorn_close(database);
    database = opened("values");
    check(vulzhorn_commits(database) == longest, "the next opening tells the commits");
    all = true;
    for (size_t length = 0; length < longest; length++)
        all = all && holds(database, 2 * (uint32_t)length, octets + length % 7, length);
    check(all, "the next opening has the values");
    vulzhorn_close(database);
}

/* --- sessions */

static void try_sessions(void) {
    vulzhorn *database = opened("sessions");
    vulzhorn_item items[VULZHORN_SCAN_MAX];
    vulzhorn_value value;
    unsigned sessions[9];
    size_t found;
    for (int i = 0; i < 8; i++) check(vulzhorn_begin(database, &sessions[i]) == VULZHORN_OK, "a session begins");
    check(vulzhorn_begin(database, &sessions[8]) == VULZHORN_NO_SESSION, "a ninth session doesn't");
    check(vulzhorn_write(database, sessions[0], 7, "\x0a\x0b", 2) == VULZHORN_OK, "a session writes");
    check(vulzhorn_write(database, sessions[0], 9, "", 0) == VULZHORN_OK, "and no octets");
    check(vulzhorn_read(database, sessions[1], 7, &value) == VULZHORN_BUSY, "another one is told that it is busy");
    check(vulzhorn_set(database, 7, "x", 1) == VULZHORN_BUSY, "so is who has none");
    check(vulzhorn_scan(database, sessions[0], 0, 64, items, &found) == VULZHORN_OK && found == 2, "a scan finds both");
    check(items[0].record == 7 && items[0].value.length == 2, "the first of them");
    check(items[1].record == 9 && items[1].value.length == 0, "and the second");
    check(vulzhorn_scan(database, sessions[1], 0, 64, items, &found) == VULZHORN_BUSY && found == 0, "a busy scan");
    check(vulzhorn_scan(database, sessions[0], 500, 64, items, &found) == VULZHORN_NO_RECORD, "a scan beyond the end");
    check(vulzhorn_commit(database, sessions[0]) == VULZHORN_OK, "it commits");
    check(vulzhorn_read(database, sessions[1], 7, &value) == VULZHORN_OK && value.length == 2, "others see it");
    check(vulzhorn_write(database, sessions[2], 7, "x", 1) == VULZHORN_BUSY, "what one has read isn't written");
    check(vulzhorn_erase(database, sessions[1], 7) == VULZHORN_OK, "a session erases");
    check(vulzhorn_mark(database, sessions[1]) == VULZHORN_OK, "marks");
    check(vulzhorn_write(database, sessions[1], 7, "x", 1) == VULZHORN_OK, "writes behind it");
    check(vulzhorn_back(database, sessions[1], -1) == VULZHORN_OK, "goes back");
    check(vulzhorn_read(database, sessions[1], 7, &value) == VULZHORN_OK && !value.there, "to what it had");
    check(vulzhorn_back(database, sessions[1], 2) == VULZHORN_REFUSED, "not to more");
    check(vulzhorn_back(database, sessions[1], 0) == VULZHORN_OK, "goes back to nothing");
    check(vulzhorn_read(database, sessions[1], 7, &value) == VULZHORN_OK && value.there, "and sees the table");
    check(vulzhorn_abort(database, sessions[1]) == VULZHORN_OK, "and aborts");
    check(vulzhorn_read(database, sessions[0], 7, &value) == VULZHORN_NO_SESSION, "a session that has ended");
    check(vulzhorn_begin(database, &sessions[0]) == VULZHORN_OK, "its number is free again");
    check(vulzhorn_get(database, 7, &value) == VULZHORN_OK && value.there, "what was aborted didn't happen");
    vulzhorn_error error = VULZHORN_OK;
    for (uint32_t i = 0; i < 400 && error == VULZHORN_OK; i++)
        error = vulzhorn_write(database, sessions[0], i % 5, "x", 1);
    check(error == VULZHORN_FULL, "a log that is full");
    vulzhorn_close(database);
}

/* --- what isn't opened */

static vulzhorn_error answer(const char *folder, vulzhorn_options options, const char *sentence) {
    vulzhorn *database;
    vulzhorn_error error = vulzhorn_open(folder, &options, &database);
    vulzhorn_value value;
    check(sentence == NULL || strstr(vulzhorn_said(database), sentence) != NULL, "what is said at an opening");
    check(error == VULZHORN_OK || vulzhorn_get(database, 0, &value) != VULZHORN_OK, "nothing is got from it");
    vulzhorn_close(database);
    return error;
}

static void try_openings(void) {
    vulzhorn_options none = {.pool = 0}, sizes = {.pages = 16, .groups = 8, .blocks = 64}, others = sizes;
    vulzhorn_options wrong_pool = {.pool = 5000}, no_program = {.program = "/nowhere/face"};
    others.pages = 17;
    check(answer("here", sizes, NULL) == VULZHORN_OK, "it is made");
    check(answer("here", sizes, NULL) == VULZHORN_OK, "and opened by its sizes");
    check(answer("here", none, NULL) == VULZHORN_OK, "or without");
    check(answer("here", others, "these sizes ask for") == VULZHORN_WRONG_SIZES, "other sizes");
    check(answer("here", wrong_pool, "fault words") == VULZHORN_WRONG_SIZES, "a pool that is too large");
    check(answer(".", none, "has no database") == VULZHORN_NO_DATABASE, "no database");
    check(answer("here", no_program, NULL) == VULZHORN_UNUSABLE, "no program");
    check(answer("nowhere", none, NULL) == VULZHORN_UNUSABLE, "no folder");
    vulzhorn *database = opened("used");
    check(answer("used", none, "another program") == VULZHORN_IN_USE, "in use");
    vulzhorn_close(database);
    check(truncate("here/face.disk", 4095) == 0 && answer("here", none, NULL) == VULZHORN_DAMAGED, "damaged");
}

/* --- many under way, and two databases */

static void try_many(void) {
    vulzhorn *first = opened("first"), *second = opened("second");
    vulzhorn_request *requests = calloc(MANY, sizeof *requests);
    bool all = requests != NULL;
    for (int i = 0; all && i < MANY; i++) {
        if (i % 50 == 0) vulzhorn_submit_set(first, &requests[i], (uint32_t)i / 50 % 512, "0123456789", 10);
        else vulzhorn_submit_get(first, &requests[i], (uint32_t)i / 50 % 512);
    }
    for (int i = 0; all && i < MANY; i++)
        all = vulzhorn_wait(first, &requests[i]) == VULZHORN_OK && (i % 50 == 0 || requests[i].value.length == 10);
    check(all, "many requests, none awaited before all are sent");
    for (int i = 0; i < 100; i++) vulzhorn_submit_set(first, &requests[i], 5, "x", 1);
    vulzhorn_close(first);
    check(requests[99].answered && requests[99].error == VULZHORN_OK, "what is under way at the close is answered");
    must(vulzhorn_set(second, 5, "y", 1), "the second goes on when the first is closed");
    kill(vulzhorn_process(second), SIGKILL);
    vulzhorn_error error = vulzhorn_set(second, 5, "z", 1);
    check(error == VULZHORN_UNANSWERED || error == VULZHORN_ENDED, "a program that was killed");
    check(vulzhorn_set(second, 5, "z", 1) == VULZHORN_ENDED, "and later");
    vulzhorn_close(second);
    free(requests);
}

/* --- a bank */

struct teller {
    vulzhorn *database;
    uint64_t seed;
    int busy, wrong;
};

static vulzhorn_error transfer(struct teller *teller, unsigned session) {
    uint32_t from = random_below(&teller->seed, ACCOUNTS), to = (from + 1 + random_below(&teller->seed, 99)) % ACCOUNTS;
    vulzhorn_value one, other;
    vulzhorn_error error = vulzhorn_read(teller->database, session, from, &one);
    if (error == VULZHORN_OK) error = vulzhorn_read(teller->database, session, to, &other);
    if (error != VULZHORN_OK || one.octets[0] == 0 || other.octets[0] == 255) return error;
    one.octets[0]--;
    other.octets[0]++;
    error = vulzhorn_write(teller->database, session, from, one.octets, 1);
    return error == VULZHORN_OK ? vulzhorn_write(teller->database, session, to, other.octets, 1) : error;
}

static void *work(void *data) {
    struct teller *teller = data;
    for (int done = 0, tries = 0; done < TRANSFERS / THREADS;) {
        unsigned session;
        vulzhorn_error error = vulzhorn_begin(teller->database, &session);
        if (error == VULZHORN_OK) {
            error = transfer(teller, session);
            if (error == VULZHORN_OK) error = vulzhorn_commit(teller->database, session);
            else vulzhorn_abort(teller->database, session);
        }
        /* where a thread sleeps in the middle of a transfer, the log has to keep all that the others do meanwhile */
        bool again = error == VULZHORN_BUSY || error == VULZHORN_FULL;
        tries = error == VULZHORN_OK ? 0 : tries + 1;
        done += error == VULZHORN_OK;
        teller->busy += error == VULZHORN_BUSY;
        teller->wrong += error != VULZHORN_OK && !again;
        if (teller->wrong > 0 || tries > 1000) break;
        nanosleep(&(struct timespec){.tv_nsec = tries * random_below(&teller->seed, 100000)}, NULL);
    }
    return NULL;
}

static void try_bank(void) {
    vulzhorn *database = opened("bank");
    struct teller tellers[THREADS];
    pthread_t threads[THREADS];
    int sum = 0, busy = 0, wrong = 0;
    uint64_t before = vulzhorn_commits(database);
    for (uint32_t account = 0; account < ACCOUNTS; account++)
        must(vulzhorn_set(database, account, "d", 1), "an account");
    for (int i = 0; i < THREADS; i++) {
        tellers[i] = (struct teller){.database = database, .seed = (uint64_t)i};
        pthread_create(&threads[i], NULL, work, &tellers[i]);
    }
    for (int i = 0; i < THREADS; i++) {
        pthread_join(threads[i], NULL);
        busy += tellers[i].busy;
        wrong += tellers[i].wrong;
    }
    vulzhorn_close(database);
    database = opened("bank");
    for (uint32_t account = 0; account < ACCOUNTS; account++) {
        vulzhorn_value value;
        must(vulzhorn_get(database, account, &value), "a balance");
        sum += value.octets[0];
    }
    check(sum == 'd' * ACCOUNTS && wrong == 0, "the sum of all accounts stays");
    check(vulzhorn_commits(database) - before == ACCOUNTS + TRANSFERS, "each transfer is there");
    check(busy > 0, "transfers collide");
    vulzhorn_close(database);
}

/* --- kills */

/* Sets at random, many at once, with a kill among them; `table` has what each record has had after so many commits. */
static void kill_once(uint64_t *seed, unsigned char table[RECORDS]) {
    vulzhorn_request requests[AHEAD];
    unsigned char value[AHEAD];
    uint32_t records[AHEAD];
    vulzhorn *database = opened("killed");
    uint64_t before = vulzhorn_commits(database);
    uint32_t when = random_below(seed, AHEAD), told = 0;
    for (uint32_t i = 0; i < AHEAD; i++) {
        records[i] = random_below(seed, RECORDS);
        value[i] = (unsigned char)random_below(seed, 256);
        vulzhorn_submit_set(database, &requests[i], records[i], &value[i], 1);
        if (i == when) vulzhorn_wait(database, &requests[random_below(seed, when + 1)]);
        if (i == when) kill(vulzhorn_process(database), SIGKILL);
    }
    bool in_order = true;
    for (uint32_t i = 0; i < AHEAD; i++) {
        vulzhorn_error error = vulzhorn_wait(database, &requests[i]);
        in_order = in_order && (error == VULZHORN_OK ? told == i && requests[i].number == before + i + 1 : i >= told);
        in_order = in_order && (error == VULZHORN_OK || error == VULZHORN_UNANSWERED || error == VULZHORN_ENDED);
        told += error == VULZHORN_OK;
    }
    check(in_order, "a kill: the first requests are answered, the others told that they may have been committed");
    vulzhorn_close(database);
    database = opened("killed");
    uint64_t kept = vulzhorn_commits(database) - before;
    check(told <= kept && kept <= AHEAD, "a kill: what was told is kept");
    for (uint32_t i = 0; i < kept; i++) table[records[i]] = value[i];
    bool same = true;
    for (uint32_t record = 0; record < RECORDS; record++) same = same && holds(database, record, &table[record], 1);
    check(same, "a kill: the records are those of so many commits");
    vulzhorn_close(database);
}

static void try_kills(void) {
    unsigned char table[RECORDS] = {0};
    uint64_t seed = 3;
    vulzhorn *database = opened("killed");
    for (uint32_t record = 0; record < RECORDS; record++) must(vulzhorn_set(database, record, table, 1), "a set");
    vulzhorn_close(database);
    for (int i = 0; i < KILLS; i++) kill_once(&seed, table);
}

int main(int count, char **words) {
    if (count != 2 || chdir(words[1]) < 0) return 2;
    alarm(500); /* what waits for ever fails */
    try_values();
    try_sessions();
    try_openings();
    try_many();
    try_bank();
    try_kills();
    printf("%d passed, %d failed\n", passed, failed);
    return failed > 0;
}
