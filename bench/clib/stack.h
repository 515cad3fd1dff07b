/* A TCP stack that serves echo at port 7 of 10.9.0.2, in memory. echo.c drives one of two: sqtcp.c or lwip.c. */
#ifndef STACK_H
#define STACK_H
#include <stddef.h>
#include <stdint.h>

void stack_opens(size_t connections);
void stack_hears(uint64_t now, const uint8_t *datagram, size_t n);
void stack_ticks(uint64_t now);

/* The next datagram that it sends, into 2,048 bytes; its length, or 0. */
size_t stack_says(uint8_t *room);
#endif
