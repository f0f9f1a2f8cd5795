/* A preload library: refuses the growths of a process from the number REFUSE_AT (counted from 1) up to REFUSE_TO, which is the same number where it is not given,
   and tells on the descriptor REFUSE_TELL that it refused the first. Where the file REFUSE_FLAG is named, each growth is refused while its first byte is 1. */

/* Declared here, since the toolchain's compiler comes without headers. */
typedef unsigned long size_t;
char *getenv(const char *);
long atol(const char *);
int open(const char *, int, ...);
void *mmap(void *, size_t, int, int, int, long);
long write(int, const void *, size_t);
void *dlsym(void *, const char *);
int *__errno_location(void);

enum { READ_ONLY = 0, MAY_READ = 1, SHARED = 1, NO_MEMORY = 12 };
#define NEXT ((void *)-1)
#define NOT_MAPPED ((void *)-1)

static long count, at = -1, to, tell = -1;
static volatile unsigned char *flag;

static long number(const char *name, long otherwise) {
    const char *text = getenv(name);
    return text ? atol(text) : otherwise;
}

static void *mapped(const char *path) {
    int file = path ? open(path, READ_ONLY) : -1;
    void *found = file >= 0 ? mmap(0, 1, MAY_READ, SHARED, file, 0) : NOT_MAPPED;
    return found == NOT_MAPPED ? 0 : found;
}

static int refused(void) {
    if (at < 0) {
        at = number("REFUSE_AT", 0);
        to = number("REFUSE_TO", at);
        tell = number("REFUSE_TELL", -1);
        flag = mapped(getenv("REFUSE_FLAG"));
    }
    if (!(flag && *flag)) {
        count++;
        if (at == 0 || count < at || count > to) return 0;
        if (count == at && tell >= 0 && write(tell, "r", 1) != 1) return 1;
    }
    *__errno_location() = NO_MEMORY;
    return 1;
}

void *malloc(size_t size) {
    static void *(*real)(size_t);
    if (!real) real = (void *(*)(size_t))dlsym(NEXT, "malloc");
    return refused() ? 0 : real(size);
}

void *realloc(void *old, size_t size) {
    static void *(*real)(void *, size_t);
    if (!real) real = (void *(*)(void *, size_t))dlsym(NEXT, "realloc");
    return refused() ? 0 : real(old, size);
}

void *aligned_alloc(size_t alignment, size_t size) {
    static void *(*real)(size_t, size_t);
    if (!real) real = (void *(*)(size_t, size_t))dlsym(NEXT, "aligned_alloc");
    return refused() ? 0 : real(alignment, size);
}

int posix_memalign(void **out, size_t alignment, size_t size) {
    static int (*real)(void **, size_t, size_t);
    if (!real) real = (int (*)(void **, size_t, size_t))dlsym(NEXT, "posix_memalign");
    return refused() ? NO_MEMORY : real(out, alignment, size);
}
