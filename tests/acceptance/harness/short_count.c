/* Preloaded, makes one call of the program a short one: the call named by SHORT_CALL, the SHORT_WHEN-th of that name, is
   asked for half of its bytes. With SHORT_MOST each read is asked for at most so many. */
#define _GNU_SOURCE
#include <dlfcn.h>
#include <stdlib.h>
#include <string.h>
#include <sys/types.h>

static size_t count_of(const char *name, size_t count)
{
    static int made;
    const char *wanted = getenv("SHORT_CALL"), *when = getenv("SHORT_WHEN"), *most = getenv("SHORT_MOST");
    if (most && strstr(name, "read") && count > (size_t)atoi(most))
        return atoi(most);
    if (!wanted || !when || strcmp(wanted, name) || ++made != atoi(when) || count < 2)
        return count;
    return count / 2;
}

#define AT_PLACE(name, bytes) \
    ssize_t name(int fd, bytes *data, size_t count, off_t at) \
    { \
        ssize_t (*real)(int, bytes *, size_t, off_t) = dlsym(RTLD_NEXT, #name); \
        return real(fd, data, count_of(#name, count), at); \
    }

#define IN_ORDER(name, bytes) \
    ssize_t name(int fd, bytes *data, size_t count) \
    { \
        ssize_t (*real)(int, bytes *, size_t) = dlsym(RTLD_NEXT, #name); \
        return real(fd, data, count_of(#name, count)); \
    }

IN_ORDER(read, void)
IN_ORDER(write, const void)
AT_PLACE(pread, void)
AT_PLACE(pread64, void)
AT_PLACE(pwrite, const void)
AT_PLACE(pwrite64, const void)
