/* A client of JACK, an effect: its process callback reads 4,096 bytes of parameters that a normal thread publishes as fast as it can, looks
 * whether they are whole, filters, and publishes meters back. WAY says how they are shared: four_slot, triple (held, without a copy), mutex,
 * inherit (with the priority of who waits) or try_lock. It tells how long the sharing took in one callback, and the periods that were lost.
 *
 * jackd -R -d dummy -r 48000 -p 64 &
 * cc -std=gnu11 -O2 jack.c $(pkg-config --cflags --libs nidzaru jack) -pthread -o jack && ./jack WAY [SECONDS [BURNING]]
 *
 * BURNING threads do nothing but burn a processor. */
#include <jack/jack.h>
#include <nidzaru.h>
#include <pthread.h>
#include <stdatomic.h>
#include <stdio.h>
#include <stdlib.h>
#include <string.h>
#include <time.h>
#include <unistd.h>

enum { TAPS = 1000, MOST = 1 << 20 };
struct parameters { uint64_t revision; float gain, check, taps[TAPS]; uint64_t end[10]; };
struct meters { uint64_t callbacks, revision, check; };
NIDZARU_REGISTER(settings, struct parameters);
NIDZARU_TRIPLE_REGISTER(held, struct parameters);
NIDZARU_HOLD(held);
NIDZARU_REGISTER(readings, struct meters);

static const char *const ways[] = {"four_slot", "triple", "mutex", "inherit", "try_lock"};
enum { FOUR_SLOT, TRIPLE, MUTEX, INHERIT, TRY_LOCK, WAYS };
static int way;
static settings_writer settings_in;
static settings_reader settings_out;
static held_writer held_in;
static held_reader held_out;
static readings_writer readings_in;
static readings_reader readings_out;
static pthread_mutex_t lock;
static struct parameters locked, mine;
static struct meters locked_meters;
static jack_port_t *from, *to;
static atomic_int is_over;
static atomic_ulong lost;

/* What the callback has seen. */
static uint64_t callbacks, torn, older, failed, missed, last;
static unsigned spent[MOST];

static uint64_t now(void) {
    struct timespec t;
    clock_gettime(CLOCK_MONOTONIC, &t);
    return (uint64_t)t.tv_sec * 1000000000u + (uint64_t)t.tv_nsec;
}

static void fill(struct parameters *p, uint64_t n) {
    p->revision = n;
    p->gain = (float)(n % 1000);
    p->check = 2 * p->gain;
    for (int k = 0; k < TAPS; k++) p->taps[k] = (float)(n % 4096);
    for (int k = 0; k < 10; k++) p->end[k] = n;
}

static int is_whole(const struct parameters *p) {
    if (p->check != 2 * p->gain || p->gain != (float)(p->revision % 1000)) return 0;
    for (int k = 0; k < TAPS; k++)
        if (p->taps[k] != (float)(p->revision % 4096)) return 0;
    for (int k = 0; k < 10; k++)
        if (p->end[k] != p->revision) return 0;
    return 1;
}

/* The newest parameters, by the way that was asked for. */
static const struct parameters *take(void) {
    const struct parameters *p = &mine;
    uint64_t number;
    if (way == FOUR_SLOT) failed += settings_read(&settings_out, &mine, &number) != 0;
    else if (way == TRIPLE) failed += held_hold(&held_out, &p, &number) != 0;
    else if (way != TRY_LOCK || !pthread_mutex_trylock(&lock)) {
        if (way != TRY_LOCK) pthread_mutex_lock(&lock);
        mine = locked;
        pthread_mutex_unlock(&lock);
    } else missed++;
    return p;
}

static void show(const struct meters *m) {
    if (way == FOUR_SLOT || way == TRIPLE) failed += readings_write(&readings_in, m) != 0;
    else if (way != TRY_LOCK || !pthread_mutex_trylock(&lock)) {
        if (way != TRY_LOCK) pthread_mutex_lock(&lock);
        locked_meters = *m;
        pthread_mutex_unlock(&lock);
    } else missed++;
}

static int process(jack_nframes_t frames, void *unused) {
    const uint64_t began = now();
    const struct parameters *p = take();
    const uint64_t taken = now();
    const float *in = jack_port_get_buffer(from, frames);
    float *out = jack_port_get_buffer(to, frames);
    (void)unused;
    torn += !is_whole(p);
    older += p->revision < last;
    last = p->revision;
    for (jack_nframes_t k = 0; k < frames; k++) out[k] = in[k] * p->gain + p->taps[k % TAPS] * 1e-9f;
    const struct meters m = {++callbacks, last, callbacks * 3 + last};
    const uint64_t filtered = now();
    show(&m);
    if (callbacks <= MOST) spent[callbacks - 1] = (unsigned)(taken - began + now() - filtered);
    return 0;
}

static int lose(void *unused) {
    (void)unused;
    lost++;
    return 0;
}

/* The editor of the parameters. */
static void *edit(void *wrong) {
    static struct parameters next;
    struct meters m = {0, 0, 0};
    uint64_t number = 0;
    for (uint64_t n = 1; !is_over; n++) {
        int status = 0;
        fill(&next, n);
        if (way == FOUR_SLOT) status = settings_write(&settings_in, &next);
        else if (way == TRIPLE) status = held_write(&held_in, &next);
        else {
            pthread_mutex_lock(&lock);
            locked = next;
            m = locked_meters;
            pthread_mutex_unlock(&lock);
        }
        if (!status && way <= TRIPLE) status = readings_news(&readings_out, &m, &number);
        if ((status && status != NIDZARU_NO_NEWS) || m.check != m.callbacks * 3 + m.revision) return wrong;
    }
    return 0;
}

static void *burn(void *unused) {
    for (volatile uint64_t n = 0; !is_over; n++) continue;
    return unused;
}

static int begin(void) {
    const struct meters none = {0, 0, 0};
    pthread_mutexattr_t kind;
    fill(&locked, 0);
    fill(&mine, 0);
    pthread_mutexattr_init(&kind);
    if (way == INHERIT) pthread_mutexattr_setprotocol(&kind, PTHREAD_PRIO_INHERIT);
    pthread_mutex_init(&lock, &kind);
    return settings_make(&locked, &settings_in, &settings_out) || held_make(&locked, &held_in, &held_out)
           || readings_make(&none, &readings_in, &readings_out);
}

static int by_size(const void *a, const void *b) {
    const unsigned x = *(const unsigned *)a, y = *(const unsigned *)b;
    return (x > y) - (x < y);
}

static int tell(const void *wrong) {
    const size_t n = callbacks < MOST ? callbacks : MOST;
    qsort(spent, n, sizeof *spent, by_size);
    if (n)
        printf("%s: %lu callbacks, %lu periods lost; ns of sharing: median %u, 99 %% %u, 99.9 %% %u, most %u; %lu locks not got\n", ways[way],
               (unsigned long)callbacks, (unsigned long)lost, spent[n / 2], spent[n * 99 / 100], spent[n * 999 / 1000], spent[n - 1],
               (unsigned long)missed);
    printf("%s\n", !n ? "no callback ran" : torn || older || failed || wrong ? "a record was torn or older" : "no record was torn");
    return !n || torn || older || failed || wrong;
}

int main(int count, char **words) {
    const int seconds = count > 2 ? atoi(words[2]) : 2, burning = count > 3 ? atoi(words[3]) : 0;
    pthread_t editor, burns[16];
    jack_client_t *client;
    void *wrong = 0;
    while (count > 1 && way < WAYS && strcmp(ways[way], words[1])) way++;
    if (way == WAYS || burning > 16 || begin()) return 2;
    client = jack_client_open("effect", JackNoStartServer, 0);
    if (!client) return fprintf(stderr, "there is no server of JACK\n"), 3;
    jack_set_process_callback(client, process, 0);
    jack_set_xrun_callback(client, lose, 0);
    from = jack_port_register(client, "in", JACK_DEFAULT_AUDIO_TYPE, JackPortIsInput, 0);
    to = jack_port_register(client, "out", JACK_DEFAULT_AUDIO_TYPE, JackPortIsOutput, 0);
    if (!from || !to || jack_activate(client)) return 3;
    pthread_create(&editor, 0, edit, words);
    for (int k = 0; k < burning; k++) pthread_create(&burns[k], 0, burn, 0);
    sleep((unsigned)seconds);
    jack_deactivate(client);
    is_over = 1;
    pthread_join(editor, &wrong);
    for (int k = 0; k < burning; k++) pthread_join(burns[k], 0);
    jack_client_close(client);
    return tell(wrong);
}
