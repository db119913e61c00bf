/* A driver and a controller in two processes, of which the driver is killed every 50 ms. It writes readings into a register that lies in
 * memory of both; the controller reads them and starts a new driver. Where the last one died between two writes the new one goes on with its
 * side. Where it died within one, the new driver recovers the side.
 *
 * cc -std=gnu11 -O2 processes.c $(pkg-config --cflags --libs nidzaru) -pthread -o processes && ./processes [KILLS [DRIVER]]
 *
 * DRIVER is a program that drives in place of this one, as the example of this name in Rust. */
#define NIDZARU_SHARED_IMPLEMENTATION
#include <nidzaru_shared.h>
#include <signal.h>
#include <stdio.h>
#include <sys/wait.h>
#include <time.h>

struct reading { uint64_t low, value, high; };
NIDZARU_REGISTER(readings, struct reading);
NIDZARU_SHARED_REGISTER(readings);

/* What the block begins with. */
struct plant { readings_shared readings; };
NIDZARU_SHARED_BLOCK(plant, struct plant);

static struct reading reading_of(uint64_t n) { return (struct reading){n, n + 1, n + 2}; }

static int is_whole(const struct reading *r) { return r->value == r->low + 1 && r->high == r->low + 2; }

static int drive(const char *name) {
    nidzaru_shared block;
    struct plant *plant;
    readings_writer *writer = 0;
    int status = plant_attach(&block, name, &plant);
    if (!status) status = readings_recover_writer(&block, &plant->readings, &writer);
    for (uint64_t n = 1; !status; n++) {
        const struct reading r = reading_of(n);
        status = readings_write(writer, &r);
    }
    fprintf(stderr, "driver: %s\n", nidzaru_shared_text(status));
    return status;
}

/* The controller: its side, and what it has seen. */
struct controller {
    nidzaru_shared block;
    struct plant *plant;
    readings_reader *reader;
    const char *driver;
    uint64_t number, records, torn, driven;
};

static double now(void) {
    struct timespec t;
    clock_gettime(CLOCK_MONOTONIC, &t);
    return (double)t.tv_sec + (double)t.tv_nsec / 1e9;
}

/* Reads for 50 ms. */
static int control(struct controller *me) {
    const uint64_t before = me->records;
    int status = 0;
    for (const double end = now() + 0.05; !status && now() < end;) {
        struct reading r;
        status = readings_news(me->reader, &r, &me->number);
        if (!status) me->records++, me->torn += !is_whole(&r);
        if (status == NIDZARU_NO_NEWS) status = 0;
    }
    me->driven += me->records > before;
    return status;
}

/* Starts a driver, a program with none of this one's memory, and kills it. */
static int run_driver(struct controller *me, const char *name) {
    const pid_t driver = fork();
    if (!driver) {
        execl(me->driver, "processes", "--drive", name, (char *)0);
        _exit(127);
    }
    const int status = driver < 0 ? NIDZARU_SHARED_SYSTEM : control(me);
    if (driver > 0) {
        kill(driver, SIGKILL);
        waitpid(driver, 0, 0);
    }
    return status;
}

int main(int count, char **words) {
    if (count == 3 && !strcmp(words[1], "--drive")) return drive(words[2]);
    const int kills = count > 1 ? atoi(words[1]) : 20;
    const struct reading still = reading_of(0);
    struct controller me = {.driver = count > 2 ? words[2] : "/proc/self/exe"};
    char name[40];
    snprintf(name, sizeof name, "/readings-%ld", (long)getpid());
    int status = plant_create(&me.block, name, 1 << 20, &me.plant);
    if (!status) status = readings_shared_make(&me.block, &me.plant->readings, &still);
    if (!status) status = nidzaru_shared_open(&me.block);
    if (!status) status = readings_claim_reader(&me.block, &me.plant->readings, &me.reader);
    for (int k = 0; k < kills && !status; k++) status = run_driver(&me, name);
    nidzaru_shared_unlink(&me.block, name);
    if (status || me.torn || !me.records) {
        fprintf(stderr, "processes: %s; %llu torn of %llu\n", nidzaru_shared_text(status), (unsigned long long)me.torn, (unsigned long long)me.records);
        return 1;
    }
    printf("%d drivers were killed, %llu of which were read; of %llu records none was torn\n", kills, (unsigned long long)me.driven,
           (unsigned long long)me.records);
    return 0;
}
