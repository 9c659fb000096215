#ifndef BARE_STDLIB_H
#define BARE_STDLIB_H
void exit(int);
#endif
