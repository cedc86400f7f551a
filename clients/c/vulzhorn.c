/* See vulzhorn.h. Of the threads that wait one at a time moves octets, for all of them (`step`). It never waits for
 * room to write while replies stand unread, and the client needs no thread of its own. Lines go into the pipe whole or
 * not at all, so the program never takes a part of one for its last line when the caller is killed. */
#define _XOPEN_SOURCE 700
#include "vulzhorn.h"

#include <errno.h>
#include <fcntl.h>
#include <poll.h>
#include <pthread.h>
#include <signal.h>
#include <stdarg.h>
#include <stdatomic.h>
#include <stdio.h>
#include <stdlib.h>
#include <string.h>
#include <sys/stat.h>
#include <sys/wait.h>
#include <unistd.h>

enum { LINE_MAX_OCTETS = 500, HEX_ROOM = 2 * VULZHORN_VALUE_ROOM + 1, ROOM = 65536, SESSIONS = 8, NOT_STARTED = 127 };

struct vulzhorn {
    pthread_mutex_t lock;
    pthread_cond_t stepped;
    bool stepping; /* a thread waits for the pipes, without the lock */
    int to, from;  /* its ends of the pipes */
    int kept;      /* the other end of `to`: where it is open no write ends the caller by a signal */
    pid_t process;
    vulzhorn_error ended;           /* VULZHORN_OK as long as the program runs */
    vulzhorn_request *first, *last; /* those under way, in the order of their lines */
    uint64_t commits;
    atomic_uint taken; /* a bit for each session */
    size_t out_length, in_length;
    char out[ROOM], in[ROOM], said[4096];
};

/* --- lines and replies */
static const char *behind(const char *line, const char *word) {
    size_t length = strlen(word);
    return strncmp(line, word, length) == 0 ? line + length : NULL;
}

/* Reads hexadecimal digits, or `-` for no octets; answers whether it was such a value. */
static bool read_value(const char *hex, vulzhorn_value *value) {
    static const char digits[] = "0123456789abcdef";
    size_t length = strspn(hex, digits);
    bool is_hex = hex[length] == '\0' && length % 2 == 0 && length / 2 <= VULZHORN_VALUE_ROOM;
    if (!is_hex && strcmp(hex, "-") != 0) return false;
    *value = (vulzhorn_value){.there = true, .length = length / 2};
    for (size_t i = 0; i < length; i++)
        value->octets[i / 2] = (unsigned char)(value->octets[i / 2] * 16 + (strchr(digits, hex[i]) - digits));
    return true;
}

/* Spells a value; one that no line has room for as one that is too long for any. */
static const char *spell(char hex[HEX_ROOM], const unsigned char *octets, size_t length) {
    strcpy(hex, "-");
    for (size_t i = 0; i < length && i < VULZHORN_VALUE_ROOM; i++) sprintf(hex + 2 * i, "%02x", octets[i]);
    return hex;
}

/* Takes the last line of a reply; answers whether it is one. */
static bool read_reply(const char *line, vulzhorn_request *request) {
    static const char *const done[] = {"none", "ok", "committed ", "aborted", "back ", "end ", "open ", "ready "};
    static const char *const refused[] = {/* in the order of the errors, from VULZHORN_BUSY to VULZHORN_REFUSED */
        "busy ", "full page ", "full ", "refused record", "refused long", "refused session", "refused "};
    const char *rest = behind(line, "value ");
    if (rest != NULL) return read_value(rest, &request->value);
    for (size_t i = 0; rest == NULL && i < sizeof done / sizeof *done; i++) rest = behind(line, done[i]);
    for (size_t i = 0; rest == NULL && i < sizeof refused / sizeof *refused; i++)
        if ((rest = behind(line, refused[i])) != NULL) request->error = VULZHORN_BUSY + (vulzhorn_error)i;
    if (rest != NULL) request->number = strtoull(rest, NULL, 10);
    return rest != NULL;
}

static bool read_item(const char *rest, vulzhorn_request *request) {
    char *end;
    if (request->found == request->room) return false;
    vulzhorn_item *item = &request->items[request->found++];
    item->record = (uint32_t)strtoul(rest, &end, 10);
    return *end == ' ' && read_value(end + 1, &item->value);
}

/* --- the program's end */
static vulzhorn_error of_status(int status, const char *said) {
    static const vulzhorn_error errors[NOT_STARTED + 1] = {
        [2] = VULZHORN_WRONG_SIZES, [3] = VULZHORN_DEVICE,     [8] = VULZHORN_WORN,
        [9] = VULZHORN_DAMAGED,     [10] = VULZHORN_NOT_BLANK, [NOT_STARTED] = VULZHORN_UNUSABLE};
    if (status == 9 && strstr(said, "another program is at work")) return VULZHORN_IN_USE;
    if (status == 9 && strstr(said, "has no database")) return VULZHORN_NO_DATABASE;
    if (status == 9 && strstr(said, "these sizes ask for")) return VULZHORN_WRONG_SIZES;
    if (status == 9 && (strstr(said, "can't be opened") || strstr(said, "can't be made") || strstr(said, "is no file")))
        return VULZHORN_UNUSABLE;
    return status > 0 && status <= NOT_STARTED && errors[status] != VULZHORN_OK ? errors[status] : VULZHORN_ENDED;
}

static void shut(int *end) {
    if (*end >= 0) close(*end);
    *end = -1;
}

static void shut_all(vulzhorn *db) {
    shut(&db->to);
    shut(&db->from);
    shut(&db->kept);
}

/* The program has told all: finds out why it ended, and tells all that wait. */
static void finish(vulzhorn *db) {
    int status = 0;
    while (waitpid(db->process, &status, 0) < 0 && errno == EINTR) continue;
    db->ended = of_status(WIFEXITED(status) ? WEXITSTATUS(status) : -1, db->said);
    shut_all(db);
    for (; db->first != NULL; db->first = db->first->next) {
        db->first->error = VULZHORN_UNANSWERED;
        db->first->answered = true;
    }
}

/* --- moving octets; the lock is held */
/* Takes a line of the program: of standard error too, which is the same pipe. */
static void hear(vulzhorn *db, const char *line) {
    vulzhorn_request *request = db->first;
    const char *item = behind(line, "item ");
    size_t said = strlen(db->said);
    if (behind(line, "face.")) return; /* how far `new` has come */
    bool is_last = said > 0 || behind(line, "fault ") || behind(line, "face: ");
    if (!is_last && request != NULL && (item ? read_item(item, request) : read_reply(line, request))) {
        if (item) return;
        db->first = request->next;
        request->answered = true;
        return;
    }
    if (!is_last) kill(db->process, SIGKILL); /* it would be taken for the reply to something else */
    snprintf(db->said + said, sizeof db->said - said, "%s\n", line);
}

static void receive(vulzhorn *db) {
    ssize_t got = read(db->from, db->in + db->in_length, ROOM - db->in_length);
    if (got < 0 && (errno == EINTR || errno == EAGAIN || errno == EWOULDBLOCK)) return;
    if (got <= 0) {
        finish(db);
        return;
    }
    char *line = db->in, *end = db->in + db->in_length + got, *newline;
    while ((newline = memchr(line, '\n', (size_t)(end - line))) != NULL) {
        *newline = '\0';
        hear(db, line);
        line = newline + 1;
    }
    db->in_length = (size_t)(end - line);
    memmove(db->in, line, db->in_length);
    if (db->in_length == ROOM) kill(db->process, SIGKILL); /* no line is so long */
}

/* Writes the whole lines that there is room for. Where the program has ended `receive` finds it. */
static void transmit(vulzhorn *db) {
    while (db->out_length > 0) {
        size_t length = db->out_length < LINE_MAX_OCTETS ? db->out_length : LINE_MAX_OCTETS;
        while (db->out[length - 1] != '\n') length--;
        if (write(db->to, db->out, length) < 0) return;
        db->out_length -= length;
        memmove(db->out, db->out + length, db->out_length);
    }
}

/* Waits until something has moved, by this thread or by another one. */
static void step(vulzhorn *db) {
    if (db->stepping) {
        pthread_cond_wait(&db->stepped, &db->lock);
        return;
    }
    struct pollfd watched[] = {{.fd = db->from, .events = POLLIN}, {.fd = db->to, .events = POLLOUT}};
    nfds_t count = db->out_length > 0 ? 2 : 1;
    db->stepping = true;
    pthread_mutex_unlock(&db->lock);
    int ready = poll(watched, count, -1);
    pthread_mutex_lock(&db->lock);
    if (ready > 0) transmit(db);
    if (ready > 0) receive(db);
    db->stepping = false;
    pthread_cond_broadcast(&db->stepped);
}

/* Sends a line of this form, and answers its request. */
static vulzhorn_request *submit(vulzhorn *db, vulzhorn_request *request, const char *form, ...) {
    char line[LINE_MAX_OCTETS + 1];
    va_list words;
    va_start(words, form);
    size_t length = (size_t)vsnprintf(line, sizeof line, form, words);
    va_end(words);
    bool is_short = length < sizeof line;
    pthread_mutex_lock(&db->lock);
    while (is_short && db->ended == VULZHORN_OK && db->out_length + length > ROOM) step(db);
    request->error = is_short ? db->ended : VULZHORN_TOO_LONG;
    request->answered = request->error != VULZHORN_OK;
    if (!request->answered) {
        if (db->first == NULL) db->first = request;
        else db->last->next = request;
        db->last = request;
        memcpy(db->out + db->out_length, line, length);
        db->out_length += length;
        transmit(db);
    }
    pthread_mutex_unlock(&db->lock);
    return request;
}

vulzhorn_error vulzhorn_wait(vulzhorn *db, vulzhorn_request *request) {
    pthread_mutex_lock(&db->lock);
    while (!request->answered) step(db);
    pthread_mutex_unlock(&db->lock);
    return request->error;
}

/* --- opening and closing */
/* A pipe that no other program inherits, above the standard streams. */
static bool make_pipe(int ends[2]) {
    if (pipe(ends) < 0) return false;
    for (int i = 0; i < 2; i++) {
        int low = ends[i];
        ends[i] = fcntl(low, F_DUPFD_CLOEXEC, 3);
        close(low);
    }
    return ends[0] >= 0 && ends[1] >= 0;
}

/* Runs the program between two pipes; answers whether it could. One thread at a time: pipe and fcntl are two calls, and
 * a child that is made between them would keep the ends of another one's pipes. */
static bool spawn(vulzhorn *db, const char *folder, char *const words[]) {
    static pthread_mutex_t one_at_a_time = PTHREAD_MUTEX_INITIALIZER;
    int input[2] = {-1, -1}, output[2] = {-1, -1};
    pthread_mutex_lock(&one_at_a_time);
    db->process = make_pipe(input) && make_pipe(output) ? fork() : -1;
    if (db->process == 0) { /* calls that are safe between fork and exec */
        setsid();           /* so that Ctrl-C in a terminal doesn't reach it: it ends at the end of its input */
        bool ready = dup2(input[0], 0) == 0 && dup2(output[1], 1) == 1 && dup2(output[1], 2) == 2;
        if (ready && chdir(folder) == 0) execvp(words[0], words);
        _exit(NOT_STARTED);
    }
    shut(&output[1]);
    pthread_mutex_unlock(&one_at_a_time);
    db->kept = input[0];
    db->to = input[1];
    db->from = output[0];
    if (db->process < 0) shut_all(db);
    return db->process >= 0;
}

/* Runs the program with the words of a line, and waits for the first line that it tells. */
static vulzhorn_error start(vulzhorn *db, const char *folder, char *program, char *line) {
    vulzhorn_request opening = {.answered = false};
    char *words[6] = {program}, *rest = line;
    for (size_t i = 1; i < 5 && (words[i] = strtok_r(i == 1 ? line : NULL, " ", &rest)) != NULL;) i++;
    if (!spawn(db, folder, words)) return VULZHORN_SYSTEM;
    fcntl(db->to, F_SETFL, O_NONBLOCK);
    fcntl(db->from, F_SETFL, O_NONBLOCK);
    db->said[0] = '\0';
    db->in_length = db->out_length = 0;
    db->first = db->last = &opening;
    db->ended = VULZHORN_OK;
    vulzhorn_wait(db, &opening);
    db->commits = opening.number;
    return db->ended;
}

/* Ends the input, and waits until the program has ended. */
static void end(vulzhorn *db) {
    pthread_mutex_lock(&db->lock);
    while (db->ended == VULZHORN_OK && db->out_length > 0) step(db);
    if (db->ended == VULZHORN_OK) shut(&db->to);
    while (db->ended == VULZHORN_OK) step(db);
    pthread_mutex_unlock(&db->lock);
}

/* Makes the database where none is. */
static vulzhorn_error make(vulzhorn *db, const char *folder, char *program, const vulzhorn_options *options) {
    char line[64];
    snprintf(line, sizeof line, "new %u %u %u", options->pages, options->groups, options->blocks);
    if (mkdir(folder, 0777) < 0 && errno != EEXIST) return VULZHORN_SYSTEM;
    vulzhorn_error made = start(db, folder, program, line);
    if (made == VULZHORN_OK) end(db);
    return made == VULZHORN_NOT_BLANK ? VULZHORN_OK : made;
}

vulzhorn_error vulzhorn_open(const char *folder, const vulzhorn_options *options, vulzhorn **opened) {
    vulzhorn_options given = options == NULL ? (vulzhorn_options){.pool = 0} : *options;
    vulzhorn *db = *opened = calloc(1, sizeof *db);
    if (db == NULL) return VULZHORN_SYSTEM;
    pthread_mutex_init(&db->lock, NULL);
    pthread_cond_init(&db->stepped, NULL);
    db->ended = VULZHORN_ENDED;
    const char *named = given.program ? given.program : getenv("FACE");
    if (named == NULL) named = "face";
    char line[64], *program = strchr(named, '/') ? realpath(named, NULL) : strdup(named);
    snprintf(line, sizeof line, "run %u", given.pool == 0 ? 64 : given.pool);
    vulzhorn_error error = program ? VULZHORN_OK : VULZHORN_UNUSABLE;
    if (error == VULZHORN_OK && given.pages > 0) error = make(db, folder, program, &given);
    if (error == VULZHORN_OK) error = start(db, folder, program, line);
    free(program);
    return error;
}

void vulzhorn_close(vulzhorn *db) {
    if (db == NULL) return;
    end(db);
    pthread_cond_destroy(&db->stepped);
    pthread_mutex_destroy(&db->lock);
    free(db);
}

/* --- requests */
/* A line takes nine digits. No database has so many records, so the program refuses such a one as well. */
static unsigned number_of(uint32_t record) { return record > 999999999 ? 999999999 : record; }

void vulzhorn_submit_get(vulzhorn *db, vulzhorn_request *request, uint32_t record) {
    *request = (vulzhorn_request){.answered = false};
    submit(db, request, "get %u\n", number_of(record));
}

void vulzhorn_submit_set(vulzhorn *db, vulzhorn_request *request, uint32_t record, const void *octets, size_t length) {
    char hex[HEX_ROOM];
    *request = (vulzhorn_request){.answered = false};
    submit(db, request, "set %u %s\n", number_of(record), spell(hex, octets, length));
}

/* Sends a line of this form, which takes these numbers, and waits for the reply; `value` is for its value, or NULL. */
static vulzhorn_error ask(vulzhorn *db, vulzhorn_value *value, const char *form, unsigned first, unsigned second) {
    vulzhorn_request request = {.answered = false};
    vulzhorn_wait(db, submit(db, &request, form, first, second));
    if (value != NULL) *value = request.value;
    return request.error;
}

/* Sends the last line of a session, which another caller may then have. */
static vulzhorn_error leave(vulzhorn *db, const char *form, unsigned session) {
    vulzhorn_error error = ask(db, NULL, form, session, 0);
    if (session < SESSIONS) atomic_fetch_and(&db->taken, ~(1U << session));
    return error;
}

vulzhorn_error vulzhorn_get(vulzhorn *db, uint32_t record, vulzhorn_value *value) {
    return ask(db, value, "get %u\n", number_of(record), 0);
}

vulzhorn_error vulzhorn_set(vulzhorn *db, uint32_t record, const void *octets, size_t length) {
    vulzhorn_request request;
    vulzhorn_submit_set(db, &request, record, octets, length);
    return vulzhorn_wait(db, &request);
}

vulzhorn_error vulzhorn_begin(vulzhorn *db, unsigned *session) {
    for (*session = 0; *session < SESSIONS; ++*session)
        if ((atomic_fetch_or(&db->taken, 1U << *session) >> *session & 1U) == 0) break;
    if (*session == SESSIONS) return VULZHORN_NO_SESSION;
    vulzhorn_error error = ask(db, NULL, "begin %u\n", *session, 0);
    if (error != VULZHORN_OK) leave(db, "abort %u\n", *session);
    return error;
}

vulzhorn_error vulzhorn_read(vulzhorn *db, unsigned session, uint32_t record, vulzhorn_value *value) {
    return ask(db, value, "read %u %u\n", session, number_of(record));
}

vulzhorn_error vulzhorn_write(vulzhorn *db, unsigned session, uint32_t record, const void *octets, size_t length) {
    vulzhorn_request request = {.answered = false};
    char hex[HEX_ROOM];
    spell(hex, octets, length);
    return vulzhorn_wait(db, submit(db, &request, "write %u %u %s\n", session, number_of(record), hex));
}

vulzhorn_error vulzhorn_erase(vulzhorn *db, unsigned session, uint32_t record) {
    return ask(db, NULL, "erase %u %u\n", session, number_of(record));
}

vulzhorn_error vulzhorn_scan(vulzhorn *db, unsigned session, uint32_t first, unsigned count, vulzhorn_item *items,
                             size_t *found) {
    vulzhorn_request request = {.items = items, .room = count};
    submit(db, &request, "scan %u %u %u\n", session, number_of(first), count);
    vulzhorn_wait(db, &request);
    *found = request.error == VULZHORN_OK ? request.found : 0;
    return request.error;
}

vulzhorn_error vulzhorn_mark(vulzhorn *db, unsigned session) { return ask(db, NULL, "mark %u\n", session, 0); }
vulzhorn_error vulzhorn_back(vulzhorn *db, unsigned session, int standing) {
    return ask(db, NULL, standing < 0 ? "back %u\n" : "back %u %u\n", session, number_of((uint32_t)standing));
}
vulzhorn_error vulzhorn_commit(vulzhorn *db, unsigned session) { return leave(db, "commit %u\n", session); }
vulzhorn_error vulzhorn_abort(vulzhorn *db, unsigned session) { return leave(db, "abort %u\n", session); }

uint64_t vulzhorn_commits(const vulzhorn *db) { return db->commits; }
pid_t vulzhorn_process(const vulzhorn *db) { return db->process; }
const char *vulzhorn_said(const vulzhorn *db) { return db->said; }

const char *vulzhorn_sentence(vulzhorn_error error) {
#define SENTENCE(name, sentence) [VULZHORN_##name] = sentence,
    static const char *const sentences[] = {VULZHORN_ERRORS(SENTENCE)};
    return (size_t)error < sizeof sentences / sizeof *sentences ? sentences[error] : "No error has this number.";
}
