/* Does what vsm does without options: reads a script from standard input line by line, writes each line to a bench, and
   prints the answers. The four settings can be given, such as 64 64 24 1024.

   cc -o example example.c -lvsm */
#include <stdio.h>
#include <stdlib.h>

#include "vsm.h"

static int print(vsm *bench) {
  char room[4096];
  size_t length;
  int code;
  while ((code = vsm_read(bench, room, sizeof room, &length)) == VSM_OK && length) fwrite(room, 1, length, stdout);
  return code;
}

int main(int count, char **words) {
  vsm_settings settings = VSM_SETTINGS;
  static char line[65538];
  int code, status = 0, c = 0;
  vsm *bench;
  if (count == 5) {
    settings.low = (uint32_t)strtoul(words[1], NULL, 10);
    settings.high = (uint32_t)strtoul(words[2], NULL, 10);
    settings.residence = (uint32_t)strtoul(words[3], NULL, 10);
    settings.history = (uint32_t)strtoul(words[4], NULL, 10);
  }
  code = vsm_open(&settings, &bench);
  while (code == VSM_OK && c != EOF) {
    size_t length = 0;
    while (length < sizeof line && (c = getchar()) != EOF) {
      line[length++] = (char)c;
      if (c == '\n') break;
    }
    code = vsm_write(bench, line, length);
    if (code == VSM_OK) code = print(bench);
  }
  if (code == VSM_OK) code = vsm_end(bench, &status);
  if (code == VSM_OK) code = print(bench);
  if (code != VSM_OK) fprintf(stderr, "example: %s\n", vsm_strerror(code));
  vsm_close(&bench);
  return code == VSM_OK ? status : code == VSM_TOO_LONG ? 8 : 16;
}
