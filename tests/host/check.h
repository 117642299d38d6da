/* What the C tests count, and their closing line. */
#ifndef CHECK_H
#define CHECK_H

#include <stdio.h>

static unsigned passed, failed;

static void check(const char *what, int holds) {
  if (holds) {
    passed++;
  } else {
    failed++;
    printf("failed: %s\n", what);
  }
}

static int closing_line(void) {
  printf("%u passed, %u failed\n", passed, failed);
  return failed != 0;
}

#endif
