/* A host with a pair of plugins, as LV2 has them: an effect, whose `run` must not wait, and its editor, each a shared object with a library of
 * its own inside. The host makes a register by the effect's code and hands the writing side to the editor's. This file is all three:
 *
 * cc -std=gnu11 -O2 -fPIC -shared -DEFFECT plugins.c $(pkg-config --cflags --libs nidzaru) -o effect.so
 * cc -std=gnu11 -O2 -fPIC -shared -DEDITOR plugins.c $(pkg-config --cflags --libs nidzaru) -o editor.so
 * cc -std=gnu11 -O2 plugins.c $(pkg-config --cflags nidzaru) -ldl -pthread -o host && ./host ./effect.so ./editor.so */
#include <nidzaru.h>

struct knobs { uint64_t turn; float gain, tone; };
NIDZARU_REGISTER(settings, struct knobs);

/* What a plugin gives to its host. */
struct effect {
    int (*make)(settings_writer *writer, settings_reader *reader);
    int (*run)(settings_reader *reader, const float *in, float *out, size_t frames, uint64_t *turn);
    int (*end)(settings_reader *reader);
};
struct editor {
    int (*turn)(settings_writer *writer, uint64_t turn);
    int (*end)(settings_writer *writer);
};

#if defined EFFECT
static int make(settings_writer *writer, settings_reader *reader) {
    const struct knobs still = {0, 0, 0};
    return settings_make(&still, writer, reader);
}

/* The sound thread's call: the newest settings, whole, in a bounded number of steps. */
static int run(settings_reader *reader, const float *in, float *out, size_t frames, uint64_t *turn) {
    struct knobs k;
    if (settings_latest(reader, &k) || k.turn < *turn || k.gain != (float)(k.turn % 64) || k.tone != 2 * k.gain) return 1;
    *turn = k.turn;
    for (size_t n = 0; n < frames; n++) out[n] = in[n] * k.gain + k.tone;
    return 0;
}

static int end(settings_reader *reader) { return settings_end_reader(reader); }

extern const struct effect plugin;
__attribute__((visibility("default"))) const struct effect plugin = {make, run, end};

#elif defined EDITOR
static int turn(settings_writer *writer, uint64_t n) {
    const float gain = (float)(n % 64);
    const struct knobs k = {n, gain, 2 * gain};
    return settings_write(writer, &k);
}

static int end(settings_writer *writer) { return settings_end_writer(writer); }

extern const struct editor plugin;
__attribute__((visibility("default"))) const struct editor plugin = {turn, end};

#else
#include <dlfcn.h>
#include <pthread.h>
#include <stdio.h>

enum { TURNS = 1000000, FRAMES = 64 };
static const struct effect *effect;
static const struct editor *editor;
static settings_writer writer;
static settings_reader reader;
static uint64_t blocks;

/* The sound thread: blocks of sound until it has the last settings. */
static void *sound(void *wrong) {
    float in[FRAMES] = {0}, out[FRAMES];
    uint64_t turn = 0;
    for (; turn < TURNS; blocks++)
        if (effect->run(&reader, in, out, FRAMES, &turn)) return wrong;
    return 0;
}

static const void *load(const char *path) {
    void *object = dlopen(path, RTLD_NOW | RTLD_GLOBAL);
    const void *plugin = object ? dlsym(object, "plugin") : 0;
    if (!plugin) fprintf(stderr, "%s\n", dlerror());
    return plugin;
}

int main(int count, char **words) {
    pthread_t thread;
    void *wrong = words;
    if (count != 3 || !(effect = load(words[1])) || !(editor = load(words[2]))) return 2;
    if (effect->make(&writer, &reader) || pthread_create(&thread, 0, sound, words)) return 1;
    for (uint64_t n = 1; n <= TURNS; n++)
        if (editor->turn(&writer, n)) return 1;
    pthread_join(thread, &wrong);
    if (editor->end(&writer) || effect->end(&reader) || wrong) return puts("a record was torn or older"), 1;
    printf("%lu blocks of sound beside %d settings\nno record was torn\n", (unsigned long)blocks, TURNS);
    return 0;
}
#endif
