// An allocator that fails one allocation: the one whose place, from 1, is FAIL_AT. It then writes a byte to the descriptor FAIL_REPORT.
// With FAIL_AT=0 it fails none, and writes a byte for each allocation.
typedef __SIZE_TYPE__ size;
void *__libc_malloc(size);
void *__libc_realloc(void *, size);
char *getenv(const char *);
long atol(const char *);
long write(int, const void *, size);

static long place = -1, made = 0;
static int report = -1;

static int fails(void) {
  long at = __atomic_add_fetch(&made, 1, __ATOMIC_SEQ_CST);
  if (place != 0 && place != at) return 0;
  write(report, ".", 1);
  return place != 0;
}

void *malloc(size bytes) { return fails() ? 0 : __libc_malloc(bytes); }
void *realloc(void *kept, size bytes) { return fails() ? 0 : __libc_realloc(kept, bytes); }

// What is allocated before this runs is not counted.
__attribute__((constructor)) static void begin(void) {
  report = atol(getenv("FAIL_REPORT"));
  place = atol(getenv("FAIL_AT"));
  made = 0;
}
