/* A shared object with the library in it, as an office's own program loads one. */
#include <chivetassel.h>

uint32_t office_judges(const uint8_t *plan, size_t plan_len);

uint32_t office_judges(const uint8_t *plan, size_t plan_len) {
    return chivetassel_verdict(plan, plan_len);
}
