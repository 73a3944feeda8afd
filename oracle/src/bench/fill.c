/* Plain loops that fill a list, for filling.rs. Compiled with -O2 and with -O3, which LEVEL tells. */
#include <stddef.h>
#include <stdint.h>

#define JOINED(name, level) name##level
#define NAMED(name, level) JOINED(name, level)

void NAMED(fill_slices_o, LEVEL)(uint32_t *out, size_t count, uint32_t per_day, uint32_t remainder) {
    for (size_t i = 0; i < count; i++) out[i] = per_day + (i < remainder);
}

void NAMED(fill_constant_o, LEVEL)(uint32_t *out, size_t count, uint32_t per_day, uint32_t remainder) {
    (void)remainder;
    for (size_t i = 0; i < count; i++) out[i] = per_day;
}
