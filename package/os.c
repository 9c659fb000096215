/* The toolchain has the functions below, for x86-64 alone: memory, a program's arguments, and errno, which C offers to nobody by a plain call.
   For another processor they stand here once more, each under its contract, which is that of the libraries `libc` (its file heap.rt) and `os` (c.rt).
   A slice comes as two parameters, a pointer and a length.
   Nothing proves this file, as nothing proves the toolchain's: tests/package compares programs linked with the one and with the other. */
#include <errno.h>
#include <stdlib.h>
#include <string.h>
#include "os.h"

/* Where there is no memory, this byte is pointed to. */
static uint8_t nothing;

static struct tried tried(void *place) {
    struct tried answer = {place != NULL, place != NULL ? place : &nothing};
    return answer;
}

/* New memory of n bytes, or of as many as its alignment, which divides 16, where n is 0: C would answer no place for none. */
struct tried rattle_alloc(size_t n, size_t alignment) {
    return tried(malloc(n > 0 ? n : alignment));
}

/* The block at a place made one of n bytes, perhaps at another one; its first bytes are as they were. Where that fails, the block is as it was. */
struct tried rattle_realloc(uint8_t *place, size_t kept, size_t n, size_t alignment) {
    (void)kept;
    return tried(realloc(place, n > 0 ? n : alignment));
}

/* What either answered is given back. */
void rattle_dealloc(uint8_t *place) {
    free(place);
}

/* The arguments, as they stand from the start to the end of a program. */
static size_t count;
static char **arguments;

/* The C library (glibc) hands them to what it calls before `main`; the program's own `main` takes none. */
__attribute__((constructor)) static void keep(int given, char **words) {
    count = given > 0 ? (size_t)given : 0;
    arguments = words;
}

/* The calling thread's errno. */
int32_t rattle_errno(void) {
    return errno;
}

/* .. which is this number from now on. */
void rattle_set_errno(int32_t error) {
    errno = error;
}

/* How many arguments there are; the name that the program was started by is the first. */
size_t rattle_arg_count(void) {
    return count;
}

/* Argument i, counted from 0, from the buffer's start on: its length, without the 0 at its end, which is not put there. -1 where there is no such
   argument, and the buffer stays. -2 where the buffer is shorter than the argument, and then its first bytes fill the buffer. */
ptrdiff_t rattle_arg(size_t i, uint8_t *buffer, size_t length) {
    if (i >= count || arguments[i] == NULL)
        return -1;
    size_t all = strlen(arguments[i]);
    size_t fits = all < length ? all : length;
    if (fits > 0)
        memcpy(buffer, arguments[i], fits);
    return all <= length ? (ptrdiff_t)all : -2;
}
