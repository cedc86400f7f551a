/* A client of the database Vulzhorn, for C11 and POSIX.1-2008; link with -pthread. Threads may share a vulzhorn, which
 * runs a program of its own over the files of a folder. clients/README.md says what each call does. */
#ifndef VULZHORN_H
#define VULZHORN_H

#include <stdbool.h>
#include <stddef.h>
#include <stdint.h>
#include <sys/types.h>

/* What a call answers. Up to REFUSED the request changed nothing, from ENDED on the program has ended. */
#define VULZHORN_ERRORS(ERROR)                                                                                         \
    ERROR(OK, "It is done.")                                                                                           \
    ERROR(BUSY, "Another session holds the record: abort, and try again behind a pause.")                              \
    ERROR(PAGE_FULL, "The record's page has no room for the value: erase others of its 32 records.")                   \
    ERROR(FULL, "The log has no room for a further write: commit or abort what is open.")                              \
    ERROR(NO_RECORD, "No record has this number: the first is 0, and there are 32 for each page.")                     \
    ERROR(TOO_LONG, "The value has more octets than the program takes: cut it, or spread it over records.")            \
    ERROR(NO_SESSION, "The session isn't open, or all eight are: commit or abort one, or begin anew.")                 \
    ERROR(REFUSED, "The program doesn't take such a request.")                                                         \
    ERROR(ENDED, "The program has ended: open the database again, it holds what was told as committed.")               \
    ERROR(WRONG_SIZES, "The program takes no such pool or sizes, or the files have others: see what it said.")         \
    ERROR(IN_USE, "Another program is at work in the folder: wait until it has ended.")                                \
    ERROR(NO_DATABASE, "The folder has no database: give sizes to make one, or another folder.")                       \
    ERROR(UNUSABLE, "A file can't be opened or made, or the program can't be run: see to rights and room.")            \
    ERROR(NOT_BLANK, "There is a database where one was to be made: open it without sizes.")                           \
    ERROR(DAMAGED, "The files aren't sound, or aren't of one database: bring back a copy of all.")                     \
    ERROR(WORN, "The log or the flash has used up its numbers: take the records to a new database.")                   \
    ERROR(DEVICE, "A file couldn't be read, written or synced: see to the disk, and start the machine again.")         \
    ERROR(UNANSWERED, "The program ended before it answered: it may or may not have been committed; open and look.")   \
    ERROR(SYSTEM, "The system refused memory, a process or a descriptor: errno says why.")

typedef enum {
#define VULZHORN_NAME(name, sentence) VULZHORN_##name,
    VULZHORN_ERRORS(VULZHORN_NAME)
#undef VULZHORN_NAME
} vulzhorn_error;

/* Room for any value: a line of the program has at most 500 octets, and two for each octet of a value. */
enum { VULZHORN_VALUE_ROOM = 250, VULZHORN_SCAN_MAX = 64 };

typedef struct {
    bool there; /* whether the record has a value */
    size_t length;
    unsigned char octets[VULZHORN_VALUE_ROOM];
} vulzhorn_value;

typedef struct {
    uint32_t record;
    vulzhorn_value value;
} vulzhorn_item;

/* How a database is opened. What is zero is left to the client. */
typedef struct {
    const char *program;            /* its path; else FACE names it, or it is `face` of the PATH */
    unsigned pool;                  /* the pages that memory holds; else 64 */
    unsigned pages, groups, blocks; /* the sizes to make it by where there is none, and that it must have; else any */
} vulzhorn_options;

/* A request that is under way, which stays where it is until vulzhorn_wait has answered. */
typedef struct vulzhorn_request {
    struct vulzhorn_request *next;
    bool answered;
    vulzhorn_error error;
    uint64_t number; /* how many commits there are behind a set, or the session that holds a busy record */
    vulzhorn_value value;
    vulzhorn_item *items;
    size_t room, found;
} vulzhorn_request;

typedef struct vulzhorn vulzhorn;
vulzhorn_error vulzhorn_open(const char *folder, const vulzhorn_options *options, vulzhorn **db);
void vulzhorn_close(vulzhorn *db);
uint64_t vulzhorn_commits(const vulzhorn *db);
pid_t vulzhorn_process(const vulzhorn *db);
const char *vulzhorn_said(const vulzhorn *db);

vulzhorn_error vulzhorn_get(vulzhorn *db, uint32_t record, vulzhorn_value *value);
vulzhorn_error vulzhorn_set(vulzhorn *db, uint32_t record, const void *octets, size_t length);

vulzhorn_error vulzhorn_begin(vulzhorn *db, unsigned *session);
vulzhorn_error vulzhorn_read(vulzhorn *db, unsigned session, uint32_t record, vulzhorn_value *value);
vulzhorn_error vulzhorn_write(vulzhorn *db, unsigned session, uint32_t record, const void *octets, size_t length);
vulzhorn_error vulzhorn_erase(vulzhorn *db, unsigned session, uint32_t record);
vulzhorn_error vulzhorn_scan(vulzhorn *db, unsigned session, uint32_t first, unsigned count, vulzhorn_item *items,
                             size_t *found);
vulzhorn_error vulzhorn_mark(vulzhorn *db, unsigned session);
vulzhorn_error vulzhorn_back(vulzhorn *db, unsigned session, int standing);
vulzhorn_error vulzhorn_commit(vulzhorn *db, unsigned session);
vulzhorn_error vulzhorn_abort(vulzhorn *db, unsigned session);

void vulzhorn_submit_get(vulzhorn *db, vulzhorn_request *request, uint32_t record);
void vulzhorn_submit_set(vulzhorn *db, vulzhorn_request *request, uint32_t record, const void *octets, size_t length);
vulzhorn_error vulzhorn_wait(vulzhorn *db, vulzhorn_request *request);

const char *vulzhorn_sentence(vulzhorn_error error);

#endif
