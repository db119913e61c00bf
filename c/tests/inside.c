/* A shared object with the library inside. It is to export this function and nothing of the library. */
#include <nidzaru.h>

struct limits {
    double low, high;
};
NIDZARU_REGISTER(limits, struct limits);

double inside(double low);

double inside(double low) {
    limits_writer writer = NIDZARU_EMPTY;
    limits_reader reader = NIDZARU_EMPTY;
    struct limits first = {0.0, 0.0}, next = {low, low + 1.0}, seen = {0.0, 0.0};
    uint64_t number = 0;
    if (limits_make(&first, &writer, &reader)) return -1.0;
    if (limits_write(&writer, &next) || limits_read(&reader, &seen, &number)) seen.low = -1.0;
    limits_end_writer(&writer);
    limits_end_reader(&reader);
    return number == 1 ? seen.low : -1.0;
}
