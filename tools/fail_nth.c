/* A heap that stands before the C library's, and refuses one growth: for tools/refused_growths, which
   builds it with the kit's compiler and has it loaded before a program. So no header is read.

   A growth is a call of malloc, calloc or realloc, or the start of a thread. Which one is refused, and the counts, stand in the
   file that the environment's FAIL_NTH names, so that they are there however the program ends. */

typedef unsigned long size;

void *__libc_malloc(size bytes);
void *__libc_calloc(size count, size bytes);
void *__libc_realloc(void *block, size bytes);
void __libc_free(void *block);
int open(const char *path, int flags, ...);
int *__errno_location(void);
char *getenv(const char *name);
void *mmap(void *at, size bytes, int rights, int how, int file, long offset);
void *dlsym(void *from, const char *name);

enum { TRY_AGAIN = 11, NO_MEMORY = 12, READ_WRITE = 2, SHARED = 1 };

struct counts {
  long growths; /* asked for */
  long refused; /* of these */
  long held;    /* blocks that were given and not given back */
  long to_come; /* the number of the growth to refuse, counted from here; 0 for none */
};

static struct counts own;
static struct counts *counts = &own;

__attribute__((constructor)) static void begin(void) {
  const char *path = getenv("FAIL_NTH");
  int file = path ? open(path, READ_WRITE) : -1;
  if (file < 0)
    return;
  void *at = mmap(0, sizeof own, 1 | 2, SHARED, file, 0);
  if (at == (void *)-1)
    return;
  struct counts *shared = at;
  shared->growths += own.growths;
  shared->held += own.held;
  counts = shared;
}

static void *refused(void) {
  *__errno_location() = NO_MEMORY;
  return 0;
}

static int is_refused(void) {
  __atomic_add_fetch(&counts->growths, 1, __ATOMIC_SEQ_CST);
  long left = __atomic_load_n(&counts->to_come, __ATOMIC_SEQ_CST);
  while (left > 0)
    if (__atomic_compare_exchange_n(&counts->to_come, &left, left - 1, 0, __ATOMIC_SEQ_CST, __ATOMIC_SEQ_CST)) {
      if (left > 1)
        return 0;
      __atomic_add_fetch(&counts->refused, 1, __ATOMIC_SEQ_CST);
      return 1;
    }
  return 0;
}

static void *given(void *block) {
  if (block)
    __atomic_add_fetch(&counts->held, 1, __ATOMIC_SEQ_CST);
  return block;
}

void *malloc(size bytes) { return is_refused() ? refused() : given(__libc_malloc(bytes)); }

void *calloc(size count, size bytes) { return is_refused() ? refused() : given(__libc_calloc(count, bytes)); }

void *realloc(void *block, size bytes) {
  if (is_refused())
    return refused();
  void *grown = __libc_realloc(block, bytes);
  return block ? grown : given(grown);
}

void free(void *block) {
  if (block)
    __atomic_sub_fetch(&counts->held, 1, __ATOMIC_SEQ_CST);
  __libc_free(block);
}

/* The C library's own, which stands behind this one. */
int pthread_create(unsigned long *thread, const void *how, void *(*begin)(void *), void *with) {
  if (is_refused())
    return TRY_AGAIN;
  int (*own)(unsigned long *, const void *, void *(*)(void *), void *) = dlsym((void *)-1, "pthread_create");
  return own(thread, how, begin, with);
}
