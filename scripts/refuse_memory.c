/* Refuses one request for memory of the program that it is loaded before (LD_PRELOAD): the Nth of its calls of malloc
   and realloc, where the environment has REFUSED_REQUEST=N. A program that the kit builds asks for memory by these two
   alone, as `nm -D` shows. That a request was refused is told by a byte on descriptor 9, which the caller has opened,
   since a program with fewer requests ends as if nothing had been asked of this object.

   The program has all its requests refused, without a byte for each, from the moment that it writes a text to standard
   error that begins with `memory: none`, up to one that begins with `memory: ample`.

   The count begins right before `main`: what the loader and the C library ask for until then differs from one system
   to the next, and is no call of the program.

   No header is included, and the C library's own names of its functions are declared here: the kit's clang, which
   builds this where there is no other compiler, comes without headers. */

typedef __SIZE_TYPE__ size_t;

void *__libc_malloc(size_t size);
void *__libc_realloc(void *block, size_t size);
long __write(int descriptor, const void *bytes, size_t count);
int strncmp(const char *one, const char *other, size_t count);
char *getenv(const char *name);
unsigned long strtoul(const char *text, char **end, int base);
int *__errno_location(void);
_Noreturn void abort(void);

enum { STANDARD_ERROR = 2, REPORT = 9, OUT_OF_MEMORY = 12 };

static const char NONE[] = "memory: none";
static const char AMPLE[] = "memory: ample";

static unsigned long refused_request;
static unsigned long requests;
static int all_are_refused;

__attribute__((constructor)) static void begin(void) {
    const char *text = getenv("REFUSED_REQUEST");
    requests = 0;
    refused_request = text ? strtoul(text, 0, 10) : 0;
}

static int begins_with(const char *bytes, size_t count, const char *text, size_t length) {
    return count >= length && strncmp(bytes, text, length) == 0;
}

long write(int descriptor, const void *bytes, size_t count) {
    if (descriptor == STANDARD_ERROR) {
        if (begins_with(bytes, count, NONE, sizeof NONE - 1))
            all_are_refused = 1;
        if (begins_with(bytes, count, AMPLE, sizeof AMPLE - 1))
            all_are_refused = 0;
    }
    return __write(descriptor, bytes, count);
}

static int is_refused(void) {
    if (!all_are_refused) {
        if (__atomic_add_fetch(&requests, 1, __ATOMIC_SEQ_CST) != refused_request)
            return 0;
        if (__write(REPORT, "\n", 1) != 1)
            abort();
    }
    *__errno_location() = OUT_OF_MEMORY;
    return 1;
}

void *malloc(size_t size) {
    return is_refused() ? 0 : __libc_malloc(size);
}

void *realloc(void *block, size_t size) {
    return is_refused() ? 0 : __libc_realloc(block, size);
}
