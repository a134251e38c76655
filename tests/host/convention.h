/* A call by the x86-64 convention spelled out, register by register. */
#ifndef CONVENTION_H
#define CONVENTION_H

#include <stdint.h>

/* Calls the function with these seven arguments; registers that it may change hold rubbish before. What it must
 * keep and did not is in `convention_broken` after: 0 if all is kept. */
uint64_t convention_call(void (*function)(void), const uint64_t argument[7]);
extern uint64_t convention_broken;

#endif
