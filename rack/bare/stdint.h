#ifndef BARE_STDINT_H
#define BARE_STDINT_H
typedef __UINT8_TYPE__ uint8_t;
typedef __UINT64_TYPE__ uint64_t;
#endif
