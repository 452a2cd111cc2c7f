/* Counts how often a program asks for memory. With REFUSED=N in the environment the Nth request gets none; without it the count is
   told on standard error when the program ends. requests.py builds it, and has the dynamic linker put it before the C library. */
extern void *__libc_malloc(unsigned long);
extern void *__libc_calloc(unsigned long, unsigned long);
extern void *__libc_realloc(void *, unsigned long);
extern void *__libc_memalign(unsigned long, unsigned long);
extern char *getenv(const char *);
extern long write(int, const void *, unsigned long);

static unsigned long count, refused;

static int given(void) { return ++count != refused; }

void *malloc(unsigned long size) { return given() ? __libc_malloc(size) : 0; }
void *calloc(unsigned long many, unsigned long size) { return given() ? __libc_calloc(many, size) : 0; }
void *realloc(void *old, unsigned long size) { return given() ? __libc_realloc(old, size) : 0; }
void *aligned_alloc(unsigned long to, unsigned long size) { return given() ? __libc_memalign(to, size) : 0; }

__attribute__((constructor)) static void begin(void) {
    const char *digits = getenv("REFUSED");
    for (count = 0; digits && *digits; digits++) refused = refused * 10 + (*digits - '0');
}

__attribute__((destructor)) static void tell(void) {
    char text[24];
    unsigned long at = sizeof text, left = count;
    if (refused) return;
    text[--at] = '\n';
    do {
        text[--at] = '0' + left % 10;
        left /= 10;
    } while (left);
    write(2, text + at, sizeof text - at);
}
