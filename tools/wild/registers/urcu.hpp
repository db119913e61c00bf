// A pointer of liburcu to records that are freed after a grace period; with XCHG by rcu_xchg_pointer.
#include <urcu.h>
#define THREADS
static record *held;
static void enter_thread() { rcu_register_thread(); }
static void leave_thread() { rcu_unregister_thread(); }
static void open_register(const record &opening) { held = new record(opening); }
static void write_register(int, const record &from) {
    static thread_local std::vector<record *> old;
#ifdef XCHG
    old.push_back(rcu_xchg_pointer(&held, new record(from)));
#else
    old.push_back(held);
    rcu_assign_pointer(held, new record(from));
#endif
    if (old.size() < 10000) return;
    synchronize_rcu();
    for (record *it : old) delete it;
    old.clear();
}
static void read_register(int, record &to) {
    rcu_read_lock();
    to = *rcu_dereference(held);
    rcu_read_unlock();
}
