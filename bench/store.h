#include <stdbool.h>
#include <stddef.h>
#include <stdint.h>

int c_check(const uint8_t *s, size_t len);
size_t c_find(const uint8_t *s, size_t len, const uint8_t *key, size_t n);
uint32_t c_put(uint8_t *s, size_t len, const uint8_t *key, size_t kn, const uint8_t *version, size_t vn,
               const uint8_t *tag, size_t tn, const uint8_t *value, size_t n, uint8_t algorithm);
uint32_t c_delete(uint8_t *s, size_t len, const uint8_t *key, size_t n);

/* The proved calls; each but the check checks the store first, and of a bad one find says SIZE_MAX, put and delete 3. */
bool rt_check(const uint8_t *s, size_t len);
size_t rt_find(const uint8_t *s, size_t len, const uint8_t *key, size_t n);
uint32_t rt_put(uint8_t *s, size_t len, const uint8_t *key, size_t kn, const uint8_t *version, size_t vn,
                const uint8_t *tag, size_t tn, const uint8_t *value, size_t n, uint8_t algorithm);
uint32_t rt_delete(uint8_t *s, size_t len, const uint8_t *key, size_t n);
