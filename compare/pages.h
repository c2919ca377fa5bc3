/* Room for slices between pages that may not be touched. */
#ifndef COMPARE_PAGES_H
#define COMPARE_PAGES_H

#include <stddef.h>
#include <stdint.h>

/* The bytes from first to end may be used; those right before first and those from end on may be neither read nor written. */
struct room {
    uint8_t *first, *end;
};

/* A room of at least so many bytes. */
struct room pages_room(size_t size);

/* From here on `touched` is called where a page is touched that may not be. It must not return. */
void pages_watch(void (*touched)(void));

#endif
