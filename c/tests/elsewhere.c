/* The second file of watched.c's program. */
#include "nidzaru.h"

extern const void *const known_elsewhere[3];
const void *const known_elsewhere[3] = {nidzaru_orders, &nidzaru_registers, nidzaru_held};
