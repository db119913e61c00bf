// A file in FOLDER that is written anew and renamed over the old one.
#include <fcntl.h>
#include <unistd.h>
static char folder[] = FOLDER "/registerXXXXXX", held[200], fresh[writers][200];
static void want(bool holds) {
    if (!holds) abort();
}
static void write_register(int me, const record &from) {
    int file = open(fresh[me], O_CREAT | O_WRONLY | O_TRUNC, 0600);
    want(write(file, &from, sizeof from) == static_cast<ssize_t>(sizeof from) && close(file) == 0 && rename(fresh[me], held) == 0);
}
static void read_register(int, record &to) {
    int file = open(held, O_RDONLY);
    want(read(file, &to, sizeof to) == static_cast<ssize_t>(sizeof to) && close(file) == 0);
}
static void clean() {
    unlink(held);
    rmdir(folder);
}
static void open_register(const record &opening) {
    want(mkdtemp(folder) != nullptr);
    snprintf(held, sizeof held, "%s/held", folder);
    for (int k = 0; k < writers; k++) snprintf(fresh[k], sizeof fresh[k], "%s/fresh%d", folder, k);
    write_register(0, opening);
    atexit(clean);
}
