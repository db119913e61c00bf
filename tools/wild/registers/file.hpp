// A place of a file, by pwrite and pread. The file lies in FOLDER, the record AT so many bytes.
#include <fcntl.h>
#include <unistd.h>
static int file;
static void want(bool holds) {
    if (!holds) abort();
}
static void write_register(int, const record &from) { want(pwrite(file, &from, sizeof from, AT) == static_cast<ssize_t>(sizeof from)); }
static void read_register(int, record &to) { want(pread(file, &to, sizeof to, AT) == static_cast<ssize_t>(sizeof to)); }
static void open_register(const record &opening) {
    char path[] = FOLDER "/registerXXXXXX";
    file = mkstemp(path);
    want(file >= 0 && unlink(path) == 0);
    write_register(0, opening);
}
