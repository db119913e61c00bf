// gpsd's shared memory: the reader is gps_read of libgps itself, the writer has the protocol of shmexport.c, from knowledge of it. A reader
// that finds a collision tries again, or, with KEEP, takes the 0 of gps_read for "nothing new" and keeps what it had.
#include <gps.h>
#include <sys/shm.h>
#include <unistd.h>
struct exported {
    int bookend1;
    struct gps_data_t data;
    int bookend2;
};
static volatile exported *shared;
static struct gps_data_t mine, theirs[writers + readers];
static void put(struct gps_data_t &to, const record &from) {
    to.fix.time.tv_sec = static_cast<time_t>(from.words[0]);
    to.fix.latitude = static_cast<double>(from.words[1]);
    to.attitude.heading = static_cast<double>(from.words[2]);
    to.toff.real.tv_sec = static_cast<time_t>(from.words[3]);
}
static void export_mine() {
    static int tick;
    tick++;
    __sync_synchronize();
    shared->bookend2 = tick;
    __sync_synchronize();
    memcpy(const_cast<struct gps_data_t *>(&shared->data), &mine, sizeof mine);
    __sync_synchronize();
    shared->bookend1 = tick;
    __sync_synchronize();
}
static void open_register(const record &opening) {
    char key[32];
    int number = 0x4e490000 + getpid() % 65536;
    snprintf(key, sizeof key, "0x%x", static_cast<unsigned>(number));
    setenv("GPSD_SHM_KEY", key, 1);
    int id = shmget(number, sizeof(exported), 0600 | IPC_CREAT);
    shared = static_cast<volatile exported *>(shmat(id, nullptr, 0));
    memset(const_cast<exported *>(shared), 0, sizeof *shared);
    put(mine, opening);
    export_mine();
    for (auto &it : theirs) {
        if (gps_open(GPSD_SHARED_MEMORY, nullptr, &it)) abort();
        while (gps_read(&it, nullptr, 0) <= 0) { // so that each reader has the opening to keep
        }
    }
    shmctl(id, IPC_RMID, nullptr);
}
static void write_register(int, const record &from) {
    put(mine, from);
    export_mine();
}
static void read_register(int me, record &to) {
    struct gps_data_t &it = theirs[me];
#ifdef KEEP
    (void)gps_read(&it, nullptr, 0);
#else
    while (gps_read(&it, nullptr, 0) <= 0) {
    }
#endif
    to = {{static_cast<uint64_t>(it.fix.time.tv_sec), static_cast<uint64_t>(it.fix.latitude), static_cast<uint64_t>(it.attitude.heading),
           static_cast<uint64_t>(it.toff.real.tv_sec)}};
}
