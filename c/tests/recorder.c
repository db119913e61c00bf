/* The recorder's own rules: what is told, what is lost, what isn't merged. C11 and C++17. The last line is `passed`. */
#include <stdio.h>
#if defined(_POSIX_C_SOURCE) && _POSIX_C_SOURCE >= 200112L
#include <errno.h>
#include <fcntl.h>
#include <string.h>
#include <sys/mman.h>
#include <unistd.h>

/* What is refused of a log in a file: nothing, space for it, which it gets in part, a place in memory, or its length, once. */
enum { NO_REFUSAL, SPACE, PLACE, LENGTH };
static int refused;

static int make_space(int file, off_t from, off_t size) {
    if (refused != SPACE) return posix_fallocate(file, from, size);
    return ftruncate(file, size - 1) ? errno : ENOSPC;
}

static void *make_place(void *at, size_t size, int protection, int flags, int file, off_t from) {
    return refused == PLACE ? MAP_FAILED : mmap(at, size, protection, flags, file, from);
}

static int make_length(int file, off_t length) {
    if (refused != LENGTH) return ftruncate(file, length);
    refused = NO_REFUSAL;
    return -1;
}

/* No file of the system is taken away, whatever is wrong with the recorder. */
static int take_away(const char *path) { return strncmp(path, "/dev/", 5) ? unlink(path) : -1; }

#define posix_fallocate make_space
#define mmap make_place
#define ftruncate make_length
#define unlink take_away
#endif
#include "nidzaru_log.h"

static int failed;
static void check(int holds, const char *what) {
    if (!holds) {
        failed = 1;
        printf("FAILED: %s\n", what);
    }
}

/* The words that stand beside a record, where words are kept. */
#if NIDZARU_LOG_WORDS >= 2
#define KEPT(first, second) ",\"words\":[" #first "," #second "]"
#elif NIDZARU_LOG_WORDS
#define KEPT(first, second) ",\"words\":[" #first "]"
#else
#define KEPT(first, second) ""
#endif

static nidzaru_log one, two;
static nidzaru_log *logs[] = {&one, &two};
static const uint64_t opening[] = {0, 7}, first[] = {1, 7}, second[] = {2, 7};
static char text[4096];

static void open_both(size_t room) {
    check(nidzaru_log_open(&one, 3, room) == 0 && nidzaru_log_open(&two, 5, room) == 0, "logs are opened");
}

static void close_both(void) {
    nidzaru_log_close(&one);
    nidzaru_log_close(&two);
    check(!one.state && !two.state, "a closed log has no memory");
}

enum { MERGE, LINES, DRAIN, FINISH };

static int put_into(FILE *to, int what, uint64_t limit) {
    nidzaru_log_record held = nidzaru_log_record_of(opening[0], opening, sizeof opening);
    switch (what) {
    case LINES: return nidzaru_log_lines(to, logs, 2);
    case DRAIN: return nidzaru_log_drain(to, logs, 2);
    case FINISH: return nidzaru_log_finish(to, logs, 2);
    default: return nidzaru_log_merge(to, logs, 2, held, limit);
    }
}

/* What is written stands in `text`; answers the status. */
static int put(int what, uint64_t limit) {
    FILE *to = tmpfile();
    size_t size;
    int status;
    check(to != NULL, "a file for the text");
    status = put_into(to, what, limit);
    rewind(to);
    size = fread(text, 1, sizeof text - 1, to);
    text[size] = 0;
    fclose(to);
    return status;
}

static int merge(uint64_t limit) { return put(MERGE, limit); }

static void write_one(nidzaru_log *log, const uint64_t *item) {
    nidzaru_log_begin_write(log, item[0], item, 2 * sizeof *item);
    nidzaru_log_end_write(log);
}

static void read_one(nidzaru_log *log, const uint64_t *item) {
    nidzaru_log_begin_read(log);
    nidzaru_log_end_read(log, item[0], item, 2 * sizeof *item);
}

/* The times of the operations are set, so that the text is known. */
static void set_times(nidzaru_log *log, size_t at, uint64_t begin, uint64_t end) {
    check(at < log->state->count, "an operation whose times are set");
    log->operations[at].begin = begin;
    log->operations[at].end = end;
    log->operations[at].record.hash = 9;
}

static void check_text(void) {
    open_both(4);
    write_one(&one, first);
    read_one(&two, opening);
    nidzaru_log_begin_write(&two, second[0], second, sizeof second);
    nidzaru_log_end_refused(&two, first[0], first, sizeof first);
    set_times(&one, 0, 102, 109);
    set_times(&two, 0, 100, 103);
    set_times(&two, 1, 105, 106);
    nidzaru_log_begin_write(&one, second[0], second, sizeof second);
    one.state->under_way.begin = 120;
    one.state->under_way.record.hash = 9;
    nidzaru_log_begin_read(&two);
    check(merge(0) == NIDZARU_LOG_NO_LIMIT && !text[0], "a refused write without a limit");
    for (int again = 0; again < 2; again++) {
        check(merge(4) == 0, "a merge");
        check(!strcmp(strchr(text, '\n'),
                      "\n"
                      "{\"who\":5,\"kind\":\"read\",\"begin\":0,\"end\":3,\"record\":[0,9]" KEPT(0, 7) "}\n"
                      "{\"who\":3,\"kind\":\"write\",\"begin\":2,\"end\":9,\"record\":[1,9]" KEPT(1, 7) "}\n"
                      "{\"who\":5,\"kind\":\"refused\",\"begin\":5,\"end\":6,\"record\":[1,9]" KEPT(1, 7) "}\n"
                      "{\"who\":3,\"kind\":\"write\",\"begin\":20,\"end\":null,\"record\":[2,9]" KEPT(2, 7) "}\n"
                      "{\"kind\":\"done\",\"ops\":4}\n"),
              "the lines by beginning: an unfinished write is there, an unfinished read isn't");
        check(!strncmp(text, "{\"kind\":\"lines\",\"opening\":[0,", 29) && strstr(text, "]" KEPT(0, 7) ",\"limit\":4}\n"), "the header");
    }
    check(put(LINES, 0) == 0 && !strcmp(text,
                                    "{\"who\":5,\"kind\":\"read\",\"begin\":100,\"end\":103,\"record\":[0,9]" KEPT(0, 7) "}\n"
                                    "{\"who\":3,\"kind\":\"write\",\"begin\":102,\"end\":109,\"record\":[1,9]" KEPT(1, 7) "}\n"
                                    "{\"who\":5,\"kind\":\"refused\",\"begin\":105,\"end\":106,\"record\":[1,9]" KEPT(1, 7) "}\n"
                                    "{\"who\":3,\"kind\":\"write\",\"begin\":120,\"end\":null,\"record\":[2,9]" KEPT(2, 7) "}\n"),
          "the lines alone, with the clock's own times");
    close_both();
    open_both(0);
    check(put(LINES, 0) == 0 && !text[0], "no lines");
    check(merge(0) == 0 && !strcmp(strchr(text, '\n'), "\n{\"kind\":\"done\",\"ops\":0}\n"), "logs without operations");
    close_both();
}

/* A write that did nothing takes no room, and is in no log. */
static void check_no_effect(void) {
    open_both(1);
    for (int again = 0; again < 3; again++) {
        nidzaru_log_begin_write(&one, second[0], second, sizeof second);
        nidzaru_log_end_no_effect(&one);
    }
    check(!nidzaru_log_is_full(&one) && one.state->turn == 3, "a write without an effect takes no room, and a turn");
    write_one(&one, first);
    check(merge(0) == 0 && strstr(text, "\"record\":[1,") && !strstr(text, "\"record\":[2,") && strstr(text, "\"ops\":1}"),
          "a write without an effect is left out");
    close_both();
    open_both(4);
    nidzaru_log_begin_read(&one);
    nidzaru_log_end_no_effect(&one);
    check(merge(0) == NIDZARU_LOG_UNPAIRED && put(LINES, 0) == NIDZARU_LOG_UNPAIRED && !text[0], "a read that ends without an effect");
    close_both();
}

static void check_full(void) {
    open_both(1);
    check(!nidzaru_log_is_full(&one), "an empty log has room");
    write_one(&one, first);
    check(nidzaru_log_is_full(&one) && merge(0) == 0, "a log that is full has lost nothing");
    read_one(&one, first);
    check(merge(0) == NIDZARU_LOG_FULL && !text[0], "a log that lost an operation isn't merged");
    check(put(LINES, 0) == NIDZARU_LOG_FULL && !text[0], "nor written as lines");
    close_both();
    check(nidzaru_log_open(&one, 0, SIZE_MAX / 2) == NIDZARU_LOG_NO_MEMORY, "room that there isn't");
}

static void check_pairs(void) {
    open_both(4);
    nidzaru_log_begin_write(&one, first[0], first, sizeof first);
    nidzaru_log_begin_read(&one);
    check(merge(0) == NIDZARU_LOG_UNPAIRED && !text[0], "a read that begins within a write");
    close_both();
    open_both(4);
    nidzaru_log_end_write(&two);
    check(merge(0) == NIDZARU_LOG_UNPAIRED, "a write that ends and hadn't begun");
    close_both();
    open_both(4);
    nidzaru_log_begin_read(&two);
    nidzaru_log_end_write(&two);
    check(merge(0) == NIDZARU_LOG_UNPAIRED, "a read that ends as a write");
    close_both();
}

/* Operations of one thread never touch, however short they are. */
static void check_times(void) {
    enum { MANY = 1000 };
    open_both(MANY);
    for (int at = 0; at < MANY; at++) read_one(&one, opening);
    for (int at = 0; at < MANY; at++) {
        const nidzaru_log_operation *it = &one.operations[at];
        check(it->begin <= it->end && (!at || it[-1].end < it->begin), "each operation begins after the thread's last end");
    }
    one.last_end = nidzaru_log_stamp_end() + 100000;
    nidzaru_log_begin_read(&one);
    check(one.state->under_way.begin > one.last_end, "a begin waits until the clock has left the last end");
    close_both();
}

/* Each byte counts, and where it stands. The hashes of words were computed by hand (in Python's whole numbers). */
static void check_records(void) {
    enum { SIZE = 1100 };
    static unsigned char bytes[SIZE], other[SIZE];
    uint64_t words[] = {5, 6, 7}, hash = nidzaru_log_record_of(0, bytes, SIZE).hash;
    check(nidzaru_log_record_of(8, words, 8).number == 8, "the number is the one that is told");
    check(nidzaru_log_record_of(8, words, 8).hash == 0x2c67c3ed3a1dbcd5u, "the hash of a word");
    check(nidzaru_log_record_of(8, words, 24).hash == 0xb422ed380a36caafu, "the hash of three words");
    check(nidzaru_log_record_of(8, "abc", 3).hash == 0x425123e1db485aaau, "the hash of three bytes");
    for (size_t at = 0; at < SIZE; at++) {
        memcpy(other, bytes, SIZE);
        other[at] = 1;
        check(nidzaru_log_record_of(0, other, SIZE).hash != hash, "each byte is in the hash");
        check(nidzaru_log_record_of(0, bytes, at).hash != hash, "the size is in the hash");
    }
    memset(other, 7, SIZE);
    memset(other, 0, 19);
    check(nidzaru_log_record_of(0, other, 19).hash == nidzaru_log_record_of(0, bytes, 19).hash, "no byte behind a record is in the hash");
}

/* The first words of a record are kept, the last one as far as it goes (on machines whose first byte is the least), and no more. */
static void check_words(void) {
#if NIDZARU_LOG_WORDS
    enum { MANY = NIDZARU_LOG_WORDS + 3 };
    uint64_t words[MANY];
    nidzaru_log_record held = nidzaru_log_record_of(0, "", 0);
    for (uint64_t at = 0; at < MANY; at++) words[at] = 10 + at;
    check(held.kept == 0, "no words of no data");
    for (size_t count = 1; count < MANY; count++) {
        held = nidzaru_log_record_of(1, words, 8 * count);
        check(held.kept == (count < NIDZARU_LOG_WORDS ? count : NIDZARU_LOG_WORDS), "so many words are kept");
        check(!memcmp(held.words, words, 8 * NIDZARU_LOG_CAST(size_t, held.kept)), "the words are those of the data");
    }
    held = nidzaru_log_record_of(1, "abc", 3);
    check(held.kept == 1 && held.words[0] == 0x636261, "a word that isn't whole");
#else
    check(sizeof(nidzaru_log_record) == 16, "a record without words");
#endif
}

/* The text of a drain of many lines. */
static char many[40000];
static int put_many(void) {
    FILE *to = tmpfile();
    int status = to ? nidzaru_log_drain(to, logs, 2) : -1;
    check(to != NULL, "a file for many lines");
    rewind(to);
    many[fread(many, 1, sizeof many - 1, to)] = 0;
    fclose(to);
    return status;
}

/* The next drain writes this, and nothing else. */
static void check_drain(const char *what, const char *wanted) {
    int status = put(DRAIN, 0);
    check(status == 0 && !strcmp(text, wanted), what);
    if (strcmp(text, wanted)) printf("%d: %s", status, text);
}

/* The next drain writes these lines, and behind them one floor, which is answered: the present, which thread 3 is said to hold. */
static uint64_t check_present(const char *what, const char *wanted) {
    uint64_t before = nidzaru_log_stamp_begin(0), floor = 0;
    int whole = 0, status = put(DRAIN, 0);
    size_t length = strlen(wanted);
    check(status == 0 && !strncmp(text, wanted, length), what);
    check(sscanf(text + length, "{\"kind\":\"floor\",\"begin\":%" SCNu64 ",\"who\":3}\n%n", &floor, &whole) == 1 && whole > 0 &&
              !text[length + NIDZARU_LOG_CAST(size_t, whole)] && before <= floor && floor <= nidzaru_log_stamp_end(),
          what);
    return floor;
}

#define FLOOR(begin, who) "{\"kind\":\"floor\",\"begin\":" #begin ",\"who\":" #who "}\n"
#define WROTE(who, times, number) "{\"who\":" #who ",\"kind\":\"write\"," times ",\"record\":[" #number ",9]" KEPT(number, 7) "}\n"
#define READ(who, times, number) "{\"who\":" #who ",\"kind\":\"read\"," times ",\"record\":[" #number ",9]" KEPT(number, 7) "}\n"
#define TIMES(begin, end) "\"begin\":" #begin ",\"end\":" #end

/* The begin of what is under way, as `set_times` sets those that ended. */
static void set_begin(nidzaru_log *log, uint64_t begin) {
    log->state->under_way.begin = begin;
    log->state->under_way.record.hash = 9;
}

/* Two threads that have ended an operation each, at 109 and 103. */
static void begin_both(void) {
    open_both(4);
    write_one(&one, first);
    read_one(&two, opening);
    set_times(&one, 0, 102, 109);
    set_times(&two, 0, 100, 103);
    set_begin(&one, 102);
    set_begin(&two, 100);
}

/* A floor is the least begin of what is under way, else behind the last end. Lines are written once. */
static void check_floors(void) {
    uint64_t floor;
    char again[80];
    begin_both();
    check_drain("what had ended, and the last end that is least",
                READ(5, TIMES(100, 103), 0) WROTE(3, TIMES(102, 109), 1) FLOOR(104, 5));
    check(nidzaru_log_holder(logs, 2) == &two, "the thread that holds the floor");
    check_drain("nothing new", "");
    nidzaru_log_begin_write(&one, second[0], second, sizeof second);
    set_begin(&one, 120);
    nidzaru_log_begin_read(&two);
    set_begin(&two, 150);
    check_drain("a write that is under way", FLOOR(120, 3));
    nidzaru_log_end_read(&two, opening[0], opening, sizeof opening);
    set_times(&two, 1, 150, 160);
    check_drain("a write that hangs holds the floor", READ(5, TIMES(150, 160), 0));
    check(nidzaru_log_holder(logs, 2) == &one, "the thread whose call hangs");
    nidzaru_log_give_up(&one);
    check_drain("a write that is given up", WROTE(3, TIMES(120, null), 2) FLOOR(161, 5));
    nidzaru_log_pause(&two);
    floor = check_present("a thread that pauses", "");
    nidzaru_log_wake(&two);
    check(put(DRAIN, 0) == 0 && two.floor >= floor, "a thread that is about to begin doesn't lower the floor");
    nidzaru_log_begin_read(&two);
    check(two.state->under_way.begin > floor, "a thread that begins again begins above the floor");
    snprintf(again, sizeof again, "{\"kind\":\"floor\",\"begin\":%" PRIu64 ",\"who\":5}\n", two.state->under_way.begin);
    check_drain("a thread that begins again holds the floor at its begin", again);
    nidzaru_log_end_read(&two, opening[0], opening, sizeof opening);
    check(put(FINISH, 0) == 0 && strstr(text, "{\"who\":5,\"kind\":\"read\",") == text && strstr(text, "\n{\"kind\":\"done\",\"ops\":5}\n"),
          "the last lines, and how many there are");
    check(merge(0) == 0 && strstr(text, "{\"kind\":\"done\",\"ops\":5}\n"), "a merge of what was drained");
    close_both();
}

/* Threads that haven't begun, are full or have left hold no floor. */
static void check_idle(void) {
    uint64_t floor;
    open_both(1);
    floor = check_present("threads that haven't begun", "");
    write_one(&one, first);
    check(one.operations[0].begin > floor, "a thread begins above the floor");
    one.operations[0].record.hash = 9;
    set_times(&one, 0, 102, 109);
    check_present("a thread whose log is full, and one that hasn't begun", WROTE(3, TIMES(102, 109), 1));
    nidzaru_log_begin_write(&one, second[0], second, sizeof second);
    set_begin(&one, UINT64_MAX / 2);
    nidzaru_log_end_no_effect(&one);
    check_present("a full log whose thread wrote without an effect", "");
    close_both();
    begin_both();
    nidzaru_log_leave(&two);
    set_times(&two, 0, 100, 120);
    check_drain("a thread that left", READ(5, TIMES(100, 120), 0) WROTE(3, TIMES(102, 109), 1) FLOOR(110, 3));
    nidzaru_log_leave(&one);
    check_present("threads that left", "");
    check(put(FINISH, 0) == 0 && strstr(text, "{\"kind\":\"done\",\"ops\":2}\n"), "the number of lines of threads that left");
    close_both();
    begin_both();
    nidzaru_log_begin_read(&one);
    nidzaru_log_begin_write(&two, second[0], second, sizeof second);
    set_begin(&one, 110);
    set_begin(&two, 120);
    nidzaru_log_leave(&one);
    nidzaru_log_leave(&two);
    check_drain("a thread that left in a write, and one that left in a read",
                READ(5, TIMES(100, 103), 0) WROTE(3, TIMES(102, 109), 1) FLOOR(120, 5));
    close_both();
    begin_both();
    nidzaru_log_begin_write(&one, second[0], second, sizeof second);
    set_begin(&one, 120);
    check(put(FINISH, 0) == 0 && strstr(text, WROTE(3, TIMES(120, null), 2)) && strstr(text, "{\"kind\":\"done\",\"ops\":3}\n"),
          "a write that is under way at the end");
    close_both();
}

/* What was given up is written once, if it ends as well; a read isn't. A thread that goes on is a fault. */
static void check_given_up(void) {
    begin_both();
    nidzaru_log_begin_write(&one, second[0], second, sizeof second);
    set_begin(&one, 120);
    nidzaru_log_begin_read(&two);
    set_begin(&two, 130);
    nidzaru_log_give_up(&one);
    nidzaru_log_give_up(&two);
    check_present("two that are given up", READ(5, TIMES(100, 103), 0) WROTE(3, TIMES(102, 109), 1) WROTE(3, TIMES(120, null), 2));
    nidzaru_log_end_write(&one);
    nidzaru_log_end_read(&two, opening[0], opening, sizeof opening);
    nidzaru_log_give_up(&one);
    check_present("two that end after all", "");
    check(put(FINISH, 0) == 0 && strstr(text, "{\"kind\":\"done\",\"ops\":3}\n"), "the number of lines of those that were given up");
    close_both();
    begin_both();
    nidzaru_log_begin_write(&one, second[0], second, sizeof second);
    set_begin(&one, 120);
    nidzaru_log_give_up(&one);
    nidzaru_log_end_write(&one);
    set_times(&one, 1, 120, 125);
    one.state->under_way.kind = NIDZARU_LOG_WRITE; /* (as between the two stores of its end) */
    check_drain("one that ends before the drain", READ(5, TIMES(100, 103), 0) WROTE(3, TIMES(102, 109), 1) WROTE(3, TIMES(120, 125), 2) FLOOR(104, 5));
    one.state->under_way.kind = NIDZARU_LOG_NOTHING;
    nidzaru_log_begin_read(&one);
    check(put(DRAIN, 0) == NIDZARU_LOG_CAME_BACK && !strcmp(text, "{\"kind\":\"fault\"}\n"), "a thread that was given up and goes on");
    check(put(FINISH, 0) == NIDZARU_LOG_CAME_BACK && !strcmp(text, "{\"kind\":\"fault\"}\n"), "nothing is finished then");
    close_both();
}

/* With a fault nothing is written but that. */
static void check_faults(void) {
    open_both(1);
    write_one(&one, first);
    read_one(&one, first);
    check(put(DRAIN, 0) == NIDZARU_LOG_FULL && !strcmp(text, "{\"kind\":\"fault\"}\n"), "a log that lost an operation");
    close_both();
    open_both(1);
    nidzaru_log_begin_write(&one, second[0], second, sizeof second);
    nidzaru_log_end_refused(&one, first[0], first, sizeof first);
    check(put(FINISH, 0) == NIDZARU_LOG_NO_LIMIT && !strcmp(text, "{\"kind\":\"fault\"}\n"), "a refused write has no line");
    close_both();
    open_both(1);
    nidzaru_log_end_write(&two);
    check(put(DRAIN, 0) == NIDZARU_LOG_UNPAIRED && !strcmp(text, "{\"kind\":\"fault\"}\n"), "an end without a begin");
    close_both();
}

/* Many lines have floors between them: each behind 15 or 16 lines, and the begin of the next. */
static void check_many(void) {
    enum { MANY = 40 };
    static const size_t places[] = {15, 31};
    char *line, floor[80];
    size_t at = 0, found = 0;
    open_both(MANY + 1);
    for (int k = 0; k < MANY; k++) read_one(&one, opening);
    nidzaru_log_pause(&one);
    check(put_many() == 0, "a drain of many");
    for (line = strtok(many, "\n"); line && at < MANY; line = strtok(NULL, "\n"), at++) {
        if (found < 2 && at == places[found]) {
            snprintf(floor, sizeof floor, "{\"kind\":\"floor\",\"begin\":%" PRIu64 ",\"who\":3}", one.operations[at].begin);
            check(!strcmp(line, floor), "a floor between lines");
            line = strtok(NULL, "\n");
            found++;
        }
        check(line && strstr(line, "\"read\""), "a line between floors");
    }
    check(found == 2 && line && strstr(line, "floor") && !strtok(NULL, "\n"), "the last floor");
    close_both();
    begin_both();
    nidzaru_log_begin_write(&one, second[0], second, sizeof second);
    set_begin(&one, 120);
    check(put_many() == 0 && two.floor == 104, "a floor to begin with");
    for (int k = 0; k < 3; k++) read_one(&two, opening);
    set_times(&two, 1, 121, 122);
    set_times(&two, 2, 123, 124);
    set_times(&two, 3, 125, 126);
    check_drain("lines by beginning, above a write that is under way",
                READ(5, TIMES(121, 122), 0) READ(5, TIMES(123, 124), 0) READ(5, TIMES(125, 126), 0) FLOOR(120, 3));
    close_both();
}

static void check_no_logs(void) {
    FILE *to = tmpfile();
    check(to && nidzaru_log_drain(to, logs, 0) == 0 && ftell(to) == 0, "a drain of no logs");
    check(to && nidzaru_log_finish(to, logs, 0) == 0 && ftell(to) == 24, "the end of no logs");
    if (to) fclose(to);
}

static void check_pace(void) {
    open_both(2);
    nidzaru_log_pace(logs, 2, 9);
    check(one.ahead == 9 && two.ahead == 9 && one.beside == logs && two.beside == logs && two.beside_count == 2, "each log keeps pace");
    close_both();
}

static void check_stream(void) {
    FILE *full = fopen("/dev/full", "w");
    if (!full) return;
    open_both(1);
    check(nidzaru_log_merge(full, logs, 2, nidzaru_log_record_of(0, opening, sizeof opening), 0) == NIDZARU_LOG_STREAM, "a full disk");
    fclose(full);
    write_one(&one, first);
    full = fopen("/dev/full", "w");
    check(full && nidzaru_log_lines(full, logs, 2) == NIDZARU_LOG_STREAM, "lines onto a full disk");
    if (full) fclose(full);
    for (int again = 0; again < 2; again++) {
        full = fopen("/dev/full", "w");
        one.merged = 0;
        check(full && put_into(full, again ? FINISH : DRAIN, 0) == NIDZARU_LOG_STREAM, "a drain onto a full disk");
        if (full) fclose(full);
    }
    close_both();
}

#if NIDZARU_LOG_FILES
/* Stores a byte into a file, or cuts it off there. */
static void spoil(const char *path, size_t at, int byte) {
    int file = open(path, O_RDWR);
    unsigned char it = NIDZARU_LOG_CAST(unsigned char, byte);
    check(file >= 0 && (byte < 0 ? ftruncate(file, NIDZARU_LOG_CAST(off_t, at)) == 0 : pwrite(file, &it, 1, NIDZARU_LOG_CAST(off_t, at)) == 1), "a file that is spoilt");
    close(file);
}

/* A file of two operations, as many as have room, is a log, and isn't one if a byte is spoilt. */
static void check_spoilt(const char *what, const char *path, size_t at, int byte) {
    check(nidzaru_log_open_file(&one, 3, 2, path) == 0, "a log in a file");
    write_one(&one, first);
    read_one(&one, first);
    nidzaru_log_close(&one);
    check(nidzaru_log_open_left(&one, path) == 0, "a full log in a file");
    nidzaru_log_close(&one);
    spoil(path, at, byte);
    check(nidzaru_log_open_left(&one, path) == NIDZARU_LOG_NO_FILE && !one.state, what);
}

/* A log for which there is no file leaves one that was there as it was, and makes none. */
static void check_kept(const char *what, const char *path, int refuses, size_t room) {
    check(nidzaru_log_open_file(&one, 3, 4, path) == 0, "a log in a file");
    write_one(&one, first);
    nidzaru_log_close(&one);
    for (int is_there = 1; is_there >= 0; is_there--) {
        refused = refuses;
        check(nidzaru_log_open_file(&one, 5, room, path) == NIDZARU_LOG_NO_FILE && !one.state, what);
        refused = NO_REFUSAL;
        check(nidzaru_log_open_left(&one, path) == (is_there ? 0 : NIDZARU_LOG_NO_FILE), what);
        check(!is_there || (one.state && one.state->who == 3 && one.state->count == 1 && one.operations[0].record.number == 1), what);
        if (one.state) nidzaru_log_close(&one);
        check((remove(path) == 0) == is_there, what);
    }
}

/* A new log in place of a longer one. */
static void check_shorter(const char *path) {
    for (size_t less = 0; less < 9; less += 4) {
        check(nidzaru_log_open_file(&one, less, 9 - less, path) == 0, "a log in a file");
        nidzaru_log_close(&one);
        check(nidzaru_log_open_left(&one, path) == 0 && one.state->who == less, "a log in a file that was longer");
        nidzaru_log_close(&one);
    }
}

/* The descriptor that the next file gets. */
static int next_file(void) {
    int file = open("/dev/null", O_RDONLY);
    close(file);
    return file;
}

/* What a thread did in a file is there for another one, finished or not. */
static void check_files(const char *path) {
    size_t state = sizeof(nidzaru_log_state), operation = sizeof(nidzaru_log_operation);
    int free_file = next_file();
    void *mapped;
    check(operation == (NIDZARU_LOG_WORDS ? 48 + 8 * NIDZARU_LOG_WORDS : 40) && state == 128 + operation, "the sizes that join.py knows");
    check(nidzaru_log_open(&two, 5, 2) == 0 && nidzaru_log_open_file(&one, 3, 9, path) == 0, "a log in a file");
    write_one(&one, first);
    nidzaru_log_begin_write(&one, second[0], second, sizeof second);
    check(one.state->count == 1 && one.state->place == 1, "an operation and one that is under way");
    mapped = one.state;
    nidzaru_log_close(&one);
    check(msync(mapped, 1, MS_ASYNC) != 0, "a log that was closed has no place in memory");
    check(nidzaru_log_open_left(&one, path) == 0 && put(LINES, 0) == 0, "what is left");
    check(!strncmp(text, "{\"who\":3,\"kind\":\"write\",", 24) && strstr(text, "\"end\":null,\"record\":[2,"),
          "a write that ended and one that didn't");
    check(strstr(text, "]" KEPT(1, 7) "}\n") && strstr(text, "]" KEPT(2, 7) "}\n"), "their words are left too");
    close_both();
    check_spoilt("another file", path, 0, 'x');
    check_spoilt("a log of another form", path, 7, 1);
    check_spoilt("a log that was cut off", path, state + 2 * operation - 1, -1);
    check_spoilt("less than a log", path, state - 1, -1);
    check_spoilt("nothing", path, 0, -1);
    check_spoilt("a log of another room", path, 16, 3);
    check_spoilt("a log of more than its room", path, 24, 3);
    check_spoilt("a log of other words", path, 64, NIDZARU_LOG_WORDS + 1);
#if NIDZARU_LOG_WORDS
    check_spoilt("a write under way of more words than are kept", path, 128 + 40, NIDZARU_LOG_WORDS + 1);
    check_spoilt("an operation of more words than are kept", path, state + 40, NIDZARU_LOG_WORDS + 1);
    check_spoilt("the last operation of more words than are kept", path, state + operation + 40, NIDZARU_LOG_WORDS + 1);
#endif
    check_spoilt("an operation of no kind", path, state, 0);
    check_spoilt("an operation of an unknown kind", path, state + operation, 4);
    check_spoilt("an operation that ends before it begins", path, state + operation + 15, 255);
    check_kept("a file without space", path, SPACE, 9);
    check_kept("a file that has no place in memory", path, PLACE, 9);
    check_kept("a file that has no place in memory and was longer", path, PLACE, 2);
    check_kept("a file that can't be made shorter", path, LENGTH, 2);
    check_kept("a file of a negative length", path, NO_REFUSAL, (SIZE_MAX - state) / operation);
    check_kept("a file of a length that overflows", path, NO_REFUSAL, SIZE_MAX / 2);
    check_shorter(path);
    remove(path);
    check(nidzaru_log_open_left(&one, path) == NIDZARU_LOG_NO_FILE, "no file");
    check(nidzaru_log_open_file(&one, 3, 9, "/dev/null/none") == NIDZARU_LOG_NO_FILE, "a file that can't be");
    check(nidzaru_log_open_file(&one, 3, SIZE_MAX / 2, path) == NIDZARU_LOG_NO_FILE, "a file that no size can say");
    memset(&one, 255, sizeof one);
    check(nidzaru_log_open_file(&one, 3, 9, "/dev/null/none") == NIDZARU_LOG_NO_FILE && !one.state, "no log where there is no file");
    memset(&one, 0, sizeof one);
    check(nidzaru_log_open_file(&one, 3, 9, "/dev/null") == NIDZARU_LOG_NO_FILE, "a file that takes nothing");
    check(next_file() == free_file, "a file that stays open");
}
#else
static void check_files(const char *path) { (void)path; }
#endif

int main(int count, char **words) {
    char path[4096];
    snprintf(path, sizeof path, "%s.log", words[count - 1]);
    check_files(path);
    check_text();
    check_no_effect();
    check_full();
    check_pairs();
    check_floors();
    check_idle();
    check_given_up();
    check_faults();
    check_many();
    check_no_logs();
    check_times();
    check_records();
    check_words();
    check_pace();
    check_stream();
    puts(failed ? "failed" : "passed");
    return failed;
}
