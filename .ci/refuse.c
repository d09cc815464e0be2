// Stands before the C library and refuses requests for memory. REFUSE is the number of the one that is refused, from 1; after one of
// SIGN bytes all are. The file REPORT gets an `s` for the sign and an `r` for each refusal. LIMIT, if it is set, is the greatest number of
// bytes that the system gives.
enum { SIGN = 54321, ADDRESS_SPACE = 9 };
void *__libc_malloc(unsigned long), *__libc_realloc(void *, unsigned long);
char *getenv(const char *);
int atoi(const char *);
int setrlimit(int, const unsigned long *);
long write(int, const void *, unsigned long);
static int left, report = -1, all;
__attribute__((constructor)) static void begin(void) {
  left = atoi(getenv("REFUSE")), report = atoi(getenv("REPORT"));
  unsigned long limit = getenv("LIMIT") ? atoi(getenv("LIMIT")) : 0, both[] = {limit, limit};
  if (limit) setrlimit(ADDRESS_SPACE, both);
}
static int refused(unsigned long n) {
  if (report < 0 || n != SIGN && !all && (left == 0 || --left)) return 0;
  all |= n == SIGN;
  return write(report, n == SIGN ? "s" : "r", 1), 1;
}
void *malloc(unsigned long n) { return refused(n) ? 0 : __libc_malloc(n); }
void *realloc(void *p, unsigned long n) { return refused(n) ? 0 : __libc_realloc(p, n); }
