/* Calls of package/os.c, or of the toolchain's functions in its place, and what they answer: tests/package links it with either, and the lines must be the
   same. It is called with a few arguments of every kind. */
#include <errno.h>
#include <stdio.h>
#include <string.h>
#include "os.h"

/* a block of n bytes, made one of m bytes: whether there is memory, whether it stands where its alignment has it, and whether its first bytes are kept */
static void block(size_t n, size_t m, size_t alignment) {
    struct tried first = rattle_alloc(n, alignment), second;
    size_t i, kept = n < m ? n : m, right = 0;
    printf("%zu bytes at %zu: %d", n, alignment, first.ok);
    if (first.ok) {
        for (i = 0; i < n; i++)
            first.place[i] = (uint8_t)(i * 7 + n);
        second = rattle_realloc(first.place, kept, m, alignment);
        for (i = 0; second.ok && i < kept; i++)
            right += second.place[i] == (uint8_t)(i * 7 + n);
        printf(", off by %zu; then %zu: %d", (size_t)first.place % alignment, m, second.ok);
        if (second.ok)
            printf(", off by %zu, %zu of %zu kept", (size_t)second.place % alignment, right, kept);
        for (i = right = 0; !second.ok && i < n; i++)
            right += first.place[i] == (uint8_t)(i * 7 + n);
        if (!second.ok)
            printf(", %zu as they were, a byte that is %d", right, *second.place);
        rattle_dealloc(second.ok ? second.place : first.place);
    } else
        printf(", a byte that is %d", *first.place);
    printf("\n");
}

int main(void) {
    uint8_t buffer[64];
    static const size_t sizes[] = {0, 1, 15, 16, 17, 255, 4096, 100000, (size_t)-1 / 4};
    printf("%zu arguments\n", rattle_arg_count());
    for (size_t i = 0; i < rattle_arg_count() + 3; i++)
        for (size_t length = 0; length <= sizeof buffer; length++) {
            memset(buffer, '.', sizeof buffer);
            if (i == 0) /* the program's own name, which is another one */
                continue;
            printf("%zu in %zu: %td ", i, length, rattle_arg(i, buffer, length));
            printf("%.64s\n", (const char *)buffer);
        }
    printf("far: %td %td\n", rattle_arg((size_t)-1, buffer, 1), rattle_arg((size_t)1 << 32, buffer, 1));
    rattle_set_errno(EDOM);
    printf("errno %d %d\n", (int)rattle_errno(), errno);
    rattle_set_errno(-7);
    printf("errno %d %d\n", (int)rattle_errno(), errno);
    for (size_t i = 0; i < sizeof sizes / sizeof *sizes; i++)
        for (size_t k = 0; k < sizeof sizes / sizeof *sizes; k++)
            for (size_t alignment = 1; alignment <= 16; alignment *= 2)
                block(sizes[i], sizes[k], alignment);
    return 0;
}
