/* The toolchain's compiler comes without headers: these four have what rack.h and the programs beside it want of them, on x86-64. */
#ifndef BARE_STDDEF_H
#define BARE_STDDEF_H
typedef __SIZE_TYPE__ size_t;
#define NULL ((void *)0)
#endif
