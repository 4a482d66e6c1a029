/* Preloaded, refuses the allocation that REFUSED numbers, counted from 1, and then writes a byte to file descriptor 3. */
typedef __SIZE_TYPE__ size_t;

extern void *__libc_malloc(size_t size);
extern void *__libc_realloc(void *old, size_t size);
extern char *getenv(const char *name);
extern long write(int descriptor, const void *bytes, size_t count);

static size_t refused;
static size_t count;
static int is_read;

static int is_refused(void) {
    if (!is_read) {
        is_read = 1;
        for (const char *digit = getenv("REFUSED"); digit && *digit; digit++)
            refused = 10 * refused + (size_t)(*digit - '0');
    }
    if (++count != refused)
        return 0;
    write(3, "!", 1);
    return 1;
}

void *malloc(size_t size) { return is_refused() ? 0 : __libc_malloc(size); }

void *realloc(void *old, size_t size) { return is_refused() ? 0 : __libc_realloc(old, size); }
