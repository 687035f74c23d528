/* For the trials of the library: counts what is as it should be, and says what isn't. */
#ifndef CHECK_H
#define CHECK_H
#include <stdio.h>
#include <stdlib.h>
#include <string.h>

#include "vsm.h"

static int passed, failed;

#define IS(call, wanted) is(__LINE__, #call, (long)(call), (long)(wanted))
static inline void is(int line, const char *call, long got, long wanted) {
  if (got == wanted) passed++;
  else failed++, printf("line %d: %s: %ld (%s), expected %ld\n", line, call, got, vsm_strerror((int)got), wanted);
}

#define SAYS(text, wanted) says(__LINE__, (text), (wanted))
static inline void says(int line, const char *got, const char *wanted) {
  if (!strcmp(got, wanted)) passed++;
  else failed++, printf("line %d: '%s', expected '%s'\n", line, got, wanted);
}

static inline int done(void) {
  printf("%d passed, %d failed\n", passed, failed);
  return failed != 0;
}
#endif
