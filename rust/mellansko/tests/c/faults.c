/*
 * An example, with calls of the system that do less than they are asked to. Which, the variable
 * FAULT says. To be linked with --wrap for each of the five.
 */
#include EXAMPLE

#include <stdlib.h>

#define AT_ONCE 1000

ssize_t __real_pwrite(int file, const void *bytes, size_t length, off_t place);
ssize_t __wrap_pwrite(int file, const void *bytes, size_t length, off_t place);
int __real_fsync(int file);
int __wrap_fsync(int file);
int __real_ftruncate(int file, off_t length);
int __wrap_ftruncate(int file, off_t length);
int __real_close(int file);
int __wrap_close(int file);
int __real_unlink(const char *name);
int __wrap_unlink(const char *name);

static int is_fault(const char *name)
{
    const char *fault = getenv("FAULT");
    return fault != NULL && strstr(fault, name) != NULL;
}

static int fails(int error)
{
    errno = error;
    return -1;
}

/* Every second time it is interrupted, and it writes some of the bytes only. */
ssize_t __wrap_pwrite(int file, const void *bytes, size_t length, off_t place)
{
    static int calls;
    if (calls++ % 2 == 0)
        return fails(EINTR);
    if (is_fault("full") && calls > 4)
        return fails(ENOSPC);
    if (is_fault("zero") && calls > 4)
        return 0;
    return __real_pwrite(file, bytes, length < AT_ONCE ? length : AT_ONCE, place);
}

int __wrap_fsync(int file)
{
    static int calls;
    return is_fault("fsync") && calls++ == 0 ? fails(EIO) : __real_fsync(file);
}

int __wrap_ftruncate(int file, off_t length)
{
    return is_fault("cut") ? fails(EIO) : __real_ftruncate(file, length);
}

/* The file is closed all the same, as Linux does. */
int __wrap_close(int file)
{
    int result = __real_close(file);
    return is_fault("close") ? fails(EIO) : result;
}

int __wrap_unlink(const char *name)
{
    return is_fault("unlink") ? fails(EACCES) : __real_unlink(name);
}
