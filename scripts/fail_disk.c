/* Lets the disk fail for the program that it is loaded before (LD_PRELOAD), while the file whose path the environment has
   as FAILING_DISK is there: each write at an offset fails with ENOSPC if the file begins with `w`, and each flush with EIO
   if it begins with `f`. A program that the kit builds writes and flushes databases by pwrite and fdatasync alone, and
   nothing else by these two.

   No header is included: the kit's clang, which builds this where there is no other compiler, comes without headers. */

typedef __SIZE_TYPE__ size_t;

char *getenv(const char *name);
int open(const char *path, int flags, ...);
long read(int descriptor, void *bytes, size_t count);
int close(int descriptor);
long syscall(long number, ...);
int *__errno_location(void);

enum { READ_ONLY = 0, IO_FAILURE = 5, NO_SPACE = 28 };

#if defined(__x86_64__)
enum { PWRITE = 18, FDATASYNC = 75 };
#elif defined(__aarch64__)
enum { PWRITE = 68, FDATASYNC = 83 };
#else
#error "the numbers of pwrite64 and fdatasync are not known for this processor"
#endif

static int fails(char kind) {
    const char *path = getenv("FAILING_DISK");
    char asked = 0;
    int descriptor;
    if (!path)
        return 0;
    descriptor = open(path, READ_ONLY);
    if (descriptor < 0)
        return 0;
    if (read(descriptor, &asked, 1) != 1)
        asked = 0;
    close(descriptor);
    return asked == kind;
}

static int refuse(int error) {
    *__errno_location() = error;
    return -1;
}

long pwrite(int descriptor, const void *bytes, size_t count, long offset) {
    return fails('w') ? refuse(NO_SPACE) : syscall(PWRITE, descriptor, bytes, count, offset);
}

long pwrite64(int descriptor, const void *bytes, size_t count, long offset) {
    return pwrite(descriptor, bytes, count, offset);
}

int fdatasync(int descriptor) {
    return fails('f') ? refuse(IO_FAILURE) : (int)syscall(FDATASYNC, descriptor);
}
