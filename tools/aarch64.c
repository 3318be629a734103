/* What std calls of C, for aarch64. The toolchain has these functions for x86-64 alone, as liblibc_c.a and libos_c.a. The library needs
   the first three, the program also the others. No proof covers them; tools/check-arm runs what is linked with them. */
typedef __SIZE_TYPE__ size_t;
typedef __PTRDIFF_TYPE__ ptrdiff_t;
typedef __UINT64_TYPE__ uint64_t;

/* (declared here, since the toolchain has no headers) */
void *malloc(size_t size);
void *realloc(void *at, size_t size);
void free(void *at);
int *__errno_location(void);

/* Whether there was memory, and where. */
typedef struct {
    uint64_t ok;
    void *at;
} allocated;

static allocated told(void *at) {
    static char nowhere;
    return (allocated){at != 0, at ? at : &nowhere};
}

/* (malloc of no bytes may give nothing) */
allocated rattle_alloc(size_t size, size_t alignment) { return told(malloc(size ? size : alignment)); }

allocated rattle_realloc(void *at, size_t kept, size_t size, size_t alignment) {
    (void)kept;
    return told(realloc(at, size ? size : alignment));
}

void rattle_dealloc(void *at) { free(at); }

int rattle_errno(void) { return *__errno_location(); }

void rattle_set_errno(int error) { *__errno_location() = error; }

static int count;
static char **words;

/* glibc gives these to each constructor. */
__attribute__((constructor)) static void keep(int main_count, char **main_words) {
    count = main_count;
    words = main_words;
}

size_t rattle_arg_count(void) { return (size_t)count; }

/* Copies a word. Its length; -1 where there is no such word, -2 where there is no room for it. */
ptrdiff_t rattle_arg(size_t number, char *out, size_t room) {
    if (number >= (size_t)count || !words[number]) return -1;
    size_t length = 0;
    for (; words[number][length]; length++) {
        if (length == room) return -2;
        out[length] = words[number][length];
    }
    return (ptrdiff_t)length;
}
