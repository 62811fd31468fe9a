/* Loaded before a program (LD_PRELOAD), this refuses the allocation whose number, from 1, is $REFUSE. Behind what the program writes
   to its standard error stands how many it asked for. */
#include <errno.h>
#include <stdio.h>
#include <stdlib.h>
#include <unistd.h>

extern void *__libc_malloc(size_t size);
extern void *__libc_realloc(void *old, size_t size);

static unsigned long asked, refused;

static int is_refused(void) {
  if (asked == 0) {
    const char *number = getenv("REFUSE");
    refused = number ? strtoul(number, NULL, 10) : 0;
  }
  asked++;
  if (asked == refused)
    errno = ENOMEM;
  return asked == refused;
}

void *malloc(size_t size) { return is_refused() ? NULL : __libc_malloc(size); }

void *realloc(void *old, size_t size) { return is_refused() ? NULL : __libc_realloc(old, size); }

__attribute__((destructor)) static void tell(void) {
  char line[32];
  int length = snprintf(line, sizeof line, "asked=%lu\n", asked);
  if (write(2, line, (size_t)length) != length)
    _exit(99);
}
