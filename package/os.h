/* The functions that package/os.c has for processors other than x86-64; package/cases.c calls them. */
#include <stdbool.h>
#include <stddef.h>
#include <stdint.h>

/* whether there is memory, and where; where there is none, a byte that is nobody's */
struct tried {
    bool ok;
    uint8_t *place;
};

struct tried rattle_alloc(size_t n, size_t alignment);
struct tried rattle_realloc(uint8_t *place, size_t kept, size_t n, size_t alignment);
void rattle_dealloc(uint8_t *place);
int32_t rattle_errno(void);
void rattle_set_errno(int32_t error);
size_t rattle_arg_count(void);
ptrdiff_t rattle_arg(size_t i, uint8_t *buffer, size_t length);
