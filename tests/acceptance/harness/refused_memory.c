/* Preloaded, refuses memory once: the call of malloc or realloc of the number REFUSED_CALL gets none. At the end of the
   program the number of calls is written into the file REFUSED_COUNT. */
#define _GNU_SOURCE
#include <dlfcn.h>
#include <fcntl.h>
#include <stdio.h>
#include <stdlib.h>
#include <unistd.h>

static unsigned long made, refused;

__attribute__((constructor)) static void begin(void)
{
    const char *number = getenv("REFUSED_CALL");
    refused = number ? strtoul(number, NULL, 10) : 0;
    made = 0;
}

__attribute__((destructor)) static void end(void)
{
    char text[32];
    const char *file = getenv("REFUSED_COUNT");
    int size = snprintf(text, sizeof text, "%lu", made), to = file ? open(file, O_WRONLY | O_CREAT | O_TRUNC, 0600) : -1;
    if (to >= 0 && write(to, text, size) == size)
        close(to);
}

void *malloc(size_t size)
{
    void *(*real)(size_t) = dlsym(RTLD_NEXT, "malloc");
    return ++made == refused ? NULL : real(size);
}

void *realloc(void *old, size_t size)
{
    void *(*real)(void *, size_t) = dlsym(RTLD_NEXT, "realloc");
    return ++made == refused ? NULL : real(old, size);
}
