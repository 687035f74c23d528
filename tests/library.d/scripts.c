/* Runs scripts on benches, and prints what each is answered. Usage: scripts pieces | growths MOST, with the scripts
   as input
   A script is a line 'LOW HIGH RESIDENCE HISTORY SEED LENGTH' and that many bytes; its output is a line of numbers, the
   code, the status and the length first, and that many bytes.
   pieces: asked statement by statement if that can be, and else written in pieces that end anywhere; by seed 0 line
   by line.
   growths: line by line, and again and again with another growth refused each time: each one, or if there are more than
   MOST, that many at equal distances. The line continues with the numbers of growths and of refused ones, how often no
   bench was opened, an answer was REFUSED MEMORY, an answer had no memory, all was as before, and anything was wrong;
   then the deepest stack in KiB. vsm.c is included, with its growths counted. Before that, what a bench with a bound of
   memory holds is looked at. */
#define _GNU_SOURCE
#include <malloc.h>
#include <stdlib.h>
#include <sys/mman.h>

static long number, refused_at, live;
static size_t bytes; /* of the blocks that are live */
static int is_refused(void) { return ++number == refused_at; }
static void *counted(void *block) { return live += block != NULL, bytes += malloc_usable_size(block), block; }
static void *counted_calloc(size_t count, size_t size) { return is_refused() ? NULL : counted(calloc(count, size)); }
static void *counted_realloc(void *old, size_t size) {
  size_t before = malloc_usable_size(old);
  void *block = is_refused() ? NULL : realloc(old, size);
  if (block) live -= old != NULL, bytes -= before;
  return counted(block);
}
static void counted_free(void *block) { live -= block != NULL, bytes -= malloc_usable_size(block), free(block); }
static void *counted_mmap(void *at, size_t size, int protection, int flags, int file, off_t offset) {
  return is_refused() ? MAP_FAILED : mmap(at, size, protection, flags, file, offset);
}
#define calloc counted_calloc
#define realloc counted_realloc
#define free counted_free
#define mmap counted_mmap
#include "vsm.c"
#undef calloc
#undef realloc
#undef free
#undef mmap

struct text {
  char *at;
  size_t length, room;
};

static uint64_t state;
static size_t depth;

static uint32_t any(uint32_t below) {
  state = state * 6364136223846793005u + 1442695040888963407u;
  return (uint32_t)(state >> 33) % below;
}

static void *or_end(void *block) {
  if (!block) abort();
  return block;
}

static void put(struct text *text, const char *from, size_t length) {
  if (text->room - text->length < length) {
    text->room = text->room * 2 + length;
    text->at = or_end(realloc(text->at, text->room));
  }
  if (length) memcpy(text->at + text->length, from, length);
  text->length += length;
}

/* Reads up to this many bytes at once, until nothing is left. */
static int drain(vsm *bench, struct text *told, uint32_t most) {
  char room[4096];
  size_t length;
  int code;
  while ((code = vsm_read(bench, room, 1 + any(most), &length)) == VSM_OK && length) put(told, room, length);
  return code;
}

/* Puts the answer to lines that were asked, under the number of the statement's first line: lines before it have
   none. */
static void put_answer(struct text *told, uint32_t line, const char *from, const char *answer) {
  char start[16];
  for (struct place place = {0}; take_text(&place, from, 1), !place.begun; from++) line += *from == '\n';
  put(told, start, (size_t)snprintf(start, sizeof start, "%07u ", line));
  put(told, answer, strlen(answer));
  put(told, "\n", 1);
}

/* Asks the next lines as one statement, if they are that; the place after them, or where it was. */
static const char *ask(vsm *bench, const char *from, const char *end, struct text *told) {
  const char *after = from, *feed, *answer;
  for (uint32_t tries = any(5); tries && (feed = memchr(after, '\n', (size_t)(end - after))); tries--) {
    uint32_t line = vsm_lines(bench) + 1;
    size_t length = (size_t)(feed + 1 - from) - any(2);
    char *statement = or_end(strndup(from, length));
    int code = strlen(statement) == length ? vsm_ask(bench, statement, &answer) : VSM_STATEMENT;
    after = feed + 1;
    if (code == VSM_OK) put_answer(told, line, from, answer);
    free(statement);
    if (code == VSM_OK) return after;
  }
  return from;
}

static int in_pieces(const vsm_settings *settings, const struct text *script, struct text *told, int *status) {
  const char *at = script->at, *end = at + script->length;
  int is_by_lines = !state;
  uint32_t most = is_by_lines ? 4096 : 300;
  vsm *bench;
  int code = vsm_open(settings, &bench);
  while (code == VSM_OK && at < end) {
    const char *after = is_by_lines ? at : ask(bench, at, end, told);
    if (after == at) {
      size_t size = 1 + any(any(4) ? 90 : 3000);
      const char *feed = !is_by_lines ? NULL : memchr(at, '\n', (size_t)(end - at));
      after = feed ? feed + 1 : size < (size_t)(end - at) ? at + size : end;
      code = vsm_write(bench, at, (size_t)(after - at));
    }
    at = after;
    /* What is asked is answered at once, so what was written before has to be read. */
    if (code == VSM_OK) code = drain(bench, told, most);
  }
  if (code == VSM_OK) code = vsm_end(bench, status);
  if (bench && code != VSM_TOO_LONG) drain(bench, told, most);
  vsm_close(&bench);
  return code;
}

/* ---- growths ---- */

static void see_depth(const vsm *bench) {
  static unsigned char pages[STACK / 4096];
  size_t i = GUARD / 4096;
  mincore(bench->stack, STACK, pages);
  while (i < STACK / 4096 && !(pages[i] & 1)) i++;
  if (STACK - i * 4096 > depth) depth = STACK - i * 4096;
}

static int by_lines(const vsm_settings *settings, const struct text *script, struct text *told, int *status) {
  const char *at = script->at, *end = at + script->length;
  vsm *bench;
  int code = vsm_open(settings, &bench);
  told->length = 0;
  while (code == VSM_OK && at < end) {
    const char *feed = memchr(at, '\n', (size_t)(end - at)), *after = feed ? feed + 1 : end;
    code = vsm_write(bench, at, (size_t)(after - at));
    at = after;
    drain(bench, told, 4096);
  }
  if (code == VSM_OK) code = vsm_end(bench, status);
  if (bench) drain(bench, told, 4096), see_depth(bench);
  vsm_close(&bench);
  return code;
}

/* Whether what was answered is as it should be, up to an answer for which a growth was refused. */
static int is_front(const struct text *told, const struct text *right, const char *answer) {
  size_t i = 0;
  while (i < told->length && i < right->length && told->at[i] == right->at[i]) i++;
  while (i && told->at[i - 1] != '\n') i--;
  return told->length - i >= 8 + strlen(answer) && !strncmp(told->at + i + 8, answer, strlen(answer));
}

static void each_growth(const vsm_settings *settings, const struct text *script, const struct text *right,
                        int right_status, long most, long counts[7]) {
  struct text told = {NULL, 0, 0};
  long all = number, step = 1 + (all - 1) / most;
  counts[0] = all;
  for (refused_at = 1; refused_at <= all; refused_at += step) {
    int status = -1, code, kind = 6, is_right;
    number = 0;
    code = by_lines(settings, script, &told, &status);
    is_right = told.length <= right->length && (!told.length || !memcmp(told.at, right->at, told.length));
    if (code == VSM_NO_MEMORY && !told.length) kind = 2;
    else if (code == VSM_LOST && is_right) kind = 4;
    else if (code == VSM_OK && is_right && told.length == right->length && status == right_status) kind = 5;
    else if (code == VSM_OK && status == 4 && is_front(&told, right, "REFUSED MEMORY\n")) kind = 3;
    counts[live ? 6 : kind]++;
    counts[1]++;
  }
  refused_at = 0;
  free(told.at);
}

/* Whether answers are held in little room though each time a byte less is read than is written. */
static int holds_little(void) {
  char room[300];
  size_t length, most = 0;
  vsm *bench;
  if (vsm_open(NULL, &bench) != VSM_OK) return 0;
  for (int i = 0; i < 5000; i++) {
    if (vsm_write(bench, " MAP\n", 5) != VSM_OK || vsm_read(bench, room, sizeof room, &length) != VSM_OK) return 0;
    if (bench->room > most) most = bench->room;
  }
  vsm_close(&bench);
  return most < 1 << 15;
}

/* Whether a bench holds at most its bound of memory and its own record, also after a statement that it refuses, and
   answers later ones; and whether none is opened that can't begin within its bound. */
static int is_bounded(void) {
  enum { MOST = 4 << 20 };
  static const char *const asked[][2] = {
      {" STORAGE OBTAIN,LENGTH=8,ADDR=P", "RC=0 A=00006000 L=00000008"},
      {" STORAGE OBTAIN,LENGTH=67108864,LOC=31", "REFUSED MEMORY"},
      {" STORAGE RELEASE,LENGTH=8,ADDR=P", "RC=0"},
      {" BACK 1", "KEPT=1"}};
  vsm_settings settings = VSM_SETTINGS;
  size_t most = MOST + sizeof(vsm) + 16384, i;
  const char *answer;
  vsm *bench;
  int is_right;
  settings.high = 1572864, settings.memory = 1000;
  is_right = vsm_open(&settings, &bench) == VSM_NO_MEMORY && !bench && !live;
  settings.memory = MOST;
  is_right &= vsm_open(&settings, &bench) == VSM_OK;
  for (i = 0; i < sizeof asked / sizeof *asked; i++) {
    is_right &= vsm_ask(bench, asked[i][0], &answer) == VSM_OK && !strcmp(answer, asked[i][1]) && bytes <= most;
    if (!is_right) fprintf(stderr, "%s: %s, %zu bytes\n", asked[i][0], answer, bytes);
  }
  vsm_close(&bench);
  return is_right && !live && !bytes;
}

int main(int count, char **words) {
  struct text script = {NULL, 0, 0}, told = {NULL, 0, 0};
  vsm_settings settings = VSM_SETTINGS;
  int of_growths = count > 1 && !strcmp(words[1], "growths"), code;
  if (of_growths && !(holds_little() && is_bounded())) return 1;
  while (scanf("%u %u %u %u %lu %zu", &settings.low, &settings.high, &settings.residence, &settings.history, &state,
               &script.length) == 6 && getchar() == '\n') {
    long counts[7] = {0, 0, 0, 0, 0, 0, 0};
    int status = -1;
    script.at = or_end(realloc(script.at, script.length + 1));
    if (fread(script.at, 1, script.length, stdin) != script.length) return 2;
    told.length = 0;
    number = 0;
    code = of_growths ? by_lines(&settings, &script, &told, &status) : in_pieces(&settings, &script, &told, &status);
    if (of_growths) each_growth(&settings, &script, &told, status, count > 2 ? atol(words[2]) : 100, counts);
    printf("%d %d %zu", code, status, told.length);
    if (of_growths) for (int i = 0; i < 7; i++) printf(" %ld", counts[i]);
    printf(of_growths ? " %zu\n" : "\n", depth / 1024);
    fwrite(told.at, 1, told.length, stdout);
  }
  free(script.at);
  free(told.at);
  return 0;
}
