/* Loaded before the C library: a file system on which a file has only one name, as on many sticks, and, with the macro
   NAMED, none without a name, as over a network. */
#define _GNU_SOURCE
#include <dlfcn.h>
#include <errno.h>
#include <fcntl.h>
#include <stdarg.h>

int linkat(int old_folder, const char *old, int new_folder, const char *new, int flags) {
    (void)old_folder, (void)old, (void)new_folder, (void)new, (void)flags;
    errno = EPERM;
    return -1;
}

#ifdef NAMED
int open64(const char *path, int flags, ...) {
    va_list more;
    va_start(more, flags);
    int mode = va_arg(more, int);
    va_end(more);
    if ((flags & O_TMPFILE) == O_TMPFILE) {
        errno = EOPNOTSUPP;
        return -1;
    }
    int (*next)(const char *, int, ...) = (int (*)(const char *, int, ...))dlsym(RTLD_NEXT, "open64");
    return next(path, flags, mode);
}
#endif
