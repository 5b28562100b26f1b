/* Refuses one allocation of a program. It is loaded before the C library (LD_PRELOAD).
 *
 * REFUSE_NTH  which allocation is refused, counted from 1 from the program's start on; none at 0 or
 *             if it is missing
 * REFUSE_SIGN a file that is made when that allocation comes: so whoever runs the program sees
 *             whether it met the refusal
 *
 * Counted are all calls in all threads, the C library's own too, of malloc, calloc, realloc,
 * reallocarray, aligned_alloc, memalign and posix_memalign.
 *
 * It includes no header, so any C compiler for x86-64 Linux with the GNU C library builds it, also
 * one that came without headers.
 */
typedef unsigned long size_t;

extern void *__libc_malloc(size_t size);
extern void *__libc_calloc(size_t count, size_t size);
extern void *__libc_realloc(void *old, size_t size);
extern void *__libc_memalign(size_t align, size_t size);
extern int *__errno_location(void);
extern char *getenv(const char *name);
extern unsigned long strtoul(const char *text, char **end, int base);
extern int creat(const char *path, unsigned mode);
extern int close(int file);

enum { OUT_OF_MEMORY = 12, INVALID = 22 };

/* how many allocations there are up to the refused one; 0 if it was refused or none is to be */
static size_t left;
static const char *sign;

/* Runs before main: what the loader asked for until then is not counted. */
__attribute__((constructor)) static void begin(void) {
  const char *nth = getenv("REFUSE_NTH");
  sign = getenv("REFUSE_SIGN");
  left = nth ? strtoul(nth, 0, 10) : 0;
}

/* Counts an allocation; whether it is the one to refuse. */
static int refuses(void) {
  size_t before = __atomic_load_n(&left, __ATOMIC_RELAXED);
  while (before && !__atomic_compare_exchange_n(&left, &before, before - 1, 0, __ATOMIC_RELAXED,
                                                __ATOMIC_RELAXED)) {
  }
  if (before != 1) return 0;
  if (sign) close(creat(sign, 0600));
  *__errno_location() = OUT_OF_MEMORY;
  return 1;
}

void *malloc(size_t size) { return refuses() ? 0 : __libc_malloc(size); }

void *calloc(size_t count, size_t size) { return refuses() ? 0 : __libc_calloc(count, size); }

void *realloc(void *old, size_t size) { return refuses() ? 0 : __libc_realloc(old, size); }

void *reallocarray(void *old, size_t count, size_t size) {
  size_t whole;
  if (!__builtin_mul_overflow(count, size, &whole)) return realloc(old, whole);
  *__errno_location() = OUT_OF_MEMORY;
  return 0;
}

void *memalign(size_t align, size_t size) { return refuses() ? 0 : __libc_memalign(align, size); }

void *aligned_alloc(size_t align, size_t size) { return memalign(align, size); }

int posix_memalign(void **made, size_t align, size_t size) {
  if (align % sizeof(void *) || align & (align - 1)) return INVALID;
  void *there = memalign(align, size);
  if (!there) return OUT_OF_MEMORY;
  *made = there;
  return 0;
}
