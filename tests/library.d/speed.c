/* How much processor time the statements of a file take, each of one line, asked one by one: for each part of
   STATEMENTS of them, in microseconds. Usage: speed FILE STATEMENTS */
#include "check.h"

#include <time.h>

int main(int count, char **words) {
  static char line[65538];
  const char *answer;
  long asked = 0, part = count > 2 ? atol(words[2]) : 0;
  FILE *file = count > 2 ? fopen(words[1], "r") : NULL;
  clock_t begun = clock();
  vsm *bench;
  if (!file || vsm_open(NULL, &bench) != VSM_OK) return 2;
  while (fgets(line, sizeof line, file)) {
    if (vsm_ask(bench, line, &answer) != VSM_OK) return 1;
    if (++asked % part) continue;
    printf("%ld\n", (long)((clock() - begun) * 1000000 / CLOCKS_PER_SEC));
    begun = clock();
  }
  vsm_close(&bench);
  return 0;
}
