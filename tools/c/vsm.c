/* The bench in the process: each bench is the main of the proved program, on a stack of its own. The build gives the
   outer calls of the program's object file the names vsm_host_.. below; it has no writable data, so benches share
   nothing. If the program reads and nothing is left, it has written all its answers: then the call returns, and the
   next one continues from there. */
#define _GNU_SOURCE
#include "vsm.h"

#include <errno.h>
#include <malloc.h>
#include <signal.h>
#include <stdio.h>
#include <stdlib.h>
#include <string.h>
#include <sys/mman.h>
#include <ucontext.h>

#if !defined __linux__ || !defined __x86_64__ || !defined __LP64__ || !defined __GLIBC__
#error "libvsm is for Linux on x86-64 with glibc, as the proved program is"
#endif

enum { MOST_LINES = 1048576, MOST_BYTES = 65536, STACK = 8 << 20, GUARD = 65536 };
enum { NUMBER = 8 /* of an answer's line, with the blank after it */ };

/* How far the script is, by its rules of lines. */
struct place {
  uint32_t lines, column; /* whole lines, and bytes of the next one */
  uint32_t begun;         /* statements */
  int is_open;            /* the last of these continues in the next line */
  int star, marked, goes_on, feed; /* of the next line; `feed`: a carriage return that may belong to its end */
};

struct vsm {
  ucontext_t caller, program;
  char words[9][12]; /* the program's arguments */
  unsigned count;
  int status, is_over, is_ending, error;
  struct place place;
  const char *in; /* what this call writes and the program hasn't read */
  size_t in_left;
  char *out, *stack; /* the answers, of which `taken` bytes were read */
  size_t length, taken, room;
  uint64_t memory, held; /* the most bytes that the program may hold, or 0; and how many it holds */
  char message[12]; /* the beginning of what goes to standard error */
  size_t said;
};

/* The bench whose call this thread is in. */
static __thread vsm *current;

const char *vsm_version(void) { return VSM_VERSION; }
int vsm_version_number(void) { return VSM_VERSION_NUMBER; }

const char *vsm_strerror(int code) {
  switch (code) {
    case VSM_OK: return "no error";
    case VSM_TOO_LONG: return "the script has more than 1,048,576 lines, or a line of more than 65,536 bytes";
    case VSM_NO_MEMORY: return "no memory for a bench";
    case VSM_SETTING: return "a setting is out of its limits";
    case VSM_NULL: return "a null pointer that isn't allowed";
    case VSM_LENGTH: return "a length that nothing in memory has";
    case VSM_ENDED: return "the script has ended";
    case VSM_STATEMENT: return "not exactly one whole statement, or another one is open";
    case VSM_LOST: return "the bench is lost: there was no memory for an answer";
    default: return "no code of this library";
  }
}

/* ---- what the program calls: hidden, so that nothing else can be bound to it ---- */

#pragma GCC visibility push(hidden)

struct growth {
  uint64_t succeeded;
  void *bytes;
};

int vsm_program_main(int count, char **words);
struct growth vsm_host_alloc(uint64_t size, uint64_t alignment);
struct growth vsm_host_realloc(void *old, uint64_t old_size, uint64_t size, uint64_t alignment);
void vsm_host_dealloc(void *bytes);
int vsm_host_errno(void);
void vsm_host_set_errno(int number);
uint64_t vsm_host_arg(uint64_t index, char *to, uint64_t most);
int64_t vsm_host_read(int file, char *to, uint64_t most);
int64_t vsm_host_write(int file, const char *from, uint64_t count);
int64_t vsm_host_raw_write(int file, const char *from, uint64_t count);
int vsm_host_open(const char *path, int flags, ...);
int vsm_host_close(int file);
int vsm_host_isatty(int file);
int vsm_host_strerror(int number, char *to, uint64_t most);
long vsm_host_signal(int number, long handler);

#pragma GCC visibility pop

/* A block of this size, in the place of an old one if there is any, within the bench's memory: what each block really
   has counts, so the last one may pass it by what malloc adds. */
static struct growth grown(void *old, uint64_t size) {
  static char nothing[16];
  vsm *bench = current;
  uint64_t others = bench->held - malloc_usable_size(old), most = bench->memory;
  void *bytes = most && (others > most || size > most - others) ? NULL : realloc(old, size);
  if (bytes) bench->held = others + malloc_usable_size(bytes);
  return (struct growth){bytes != NULL, bytes ? bytes : nothing};
}
struct growth vsm_host_alloc(uint64_t size, uint64_t alignment) { return grown(NULL, size ? size : alignment); }
struct growth vsm_host_realloc(void *old, uint64_t old_size, uint64_t size, uint64_t alignment) {
  (void)old_size;
  return grown(old, size ? size : alignment);
}
void vsm_host_dealloc(void *bytes) {
  current->held -= malloc_usable_size(bytes);
  free(bytes);
}
int vsm_host_errno(void) { return current->error; }
void vsm_host_set_errno(int number) { current->error = number; }

/* It names no file, and no stream of it is a terminal. */
int vsm_host_open(const char *path, int flags, ...) { return (void)path, (void)flags, current->error = ENOENT, -1; }
int vsm_host_close(int file) { return (void)file, 0; }
int vsm_host_isatty(int file) { return (void)file, 0; }
int vsm_host_strerror(int number, char *to, uint64_t most) {
  if (most) *to = '\0';
  return (void)number, 0;
}
long vsm_host_signal(int number, long handler) { return (void)number, (void)handler, 0; }

uint64_t vsm_host_arg(uint64_t index, char *to, uint64_t most) {
  const char *word = index < current->count ? current->words[index] : NULL;
  uint64_t length = word ? strlen(word) : UINT64_MAX;
  if (word && to) memcpy(to, word, length < most ? length : most);
  return length;
}

/* Only this function and `run` switch stacks; the thread sanitizer, which counts calls, is to see neither's begin.
   After a switch the thread may be another one, so `current` isn't looked at again. */
#define SWITCHES __attribute__((noinline, no_sanitize_thread))

SWITCHES int64_t vsm_host_read(int file, char *to, uint64_t most) {
  vsm *bench = current;
  (void)file;
  while (!bench->in_left && !bench->is_ending) swapcontext(&bench->program, &bench->caller);
  if (most > bench->in_left) most = bench->in_left;
  if (most) {
    memcpy(to, bench->in, most);
    bench->in += most;
    bench->in_left -= most;
  }
  return (int64_t)most;
}

/* Whether `count` bytes and one more fit after the answers. */
static int has_room(vsm *bench, size_t count) {
  size_t room = bench->room * 2 + count + 4096;
  char *more;
  if (bench->taken > bench->length / 2) {
    bench->length -= bench->taken;
    memmove(bench->out, bench->out + bench->taken, bench->length);
    bench->taken = 0;
  }
  if (bench->room - bench->length > count) return 1;
  more = realloc(bench->out, room);
  if (!more) return 0;
  bench->out = more;
  bench->room = room;
  return 1;
}

int64_t vsm_host_write(int file, const char *from, uint64_t count) {
  vsm *bench = current;
  if (file == 2) {
    size_t left = sizeof bench->message - 1 - bench->said, size = count < left ? count : left;
    memcpy(bench->message + bench->said, from, size);
    bench->said += size;
    return (int64_t)count;
  }
  if (!has_room(bench, count)) return bench->error = ENOMEM, -1;
  memcpy(bench->out + bench->length, from, count);
  bench->length += count;
  return (int64_t)count;
}
int64_t vsm_host_raw_write(int file, const char *from, uint64_t count) { return vsm_host_write(file, from, count); }

SWITCHES static void run(void) {
  vsm *bench = current;
  bench->status = vsm_program_main(1, NULL);
  bench->is_over = 1;
  setcontext(&bench->caller);
}

/* Lets the program continue until it has read this text and asks for more. */
__attribute__((noinline)) static void resume(vsm *bench, const char *text, size_t length) {
  if (bench->taken == bench->length) bench->taken = bench->length = 0;
  bench->in = text;
  bench->in_left = length;
  if (bench->is_over) return;
  current = bench;
  sigprocmask(SIG_SETMASK, NULL, &bench->program.uc_sigmask);
  swapcontext(&bench->caller, &bench->program);
  current = NULL;
}

/* ---- lines that are written ---- */

static void take_byte(struct place *place, char byte) {
  uint32_t column = place->column++;
  if (column == 0) place->star = byte == '*';
  if (column < 71) place->marked |= byte != ' ';
  if (column == 71) place->goes_on = byte != ' ';
}

static void end_line(struct place *place) {
  place->lines++;
  if (place->is_open || (place->marked && !place->star)) {
    place->begun += !place->is_open;
    place->is_open = place->goes_on;
  }
  place->column = 0;
  place->star = place->marked = place->goes_on = place->feed = 0;
}

/* Whether the text continues from this place within the bounds of a script; then the place is the one after it. */
static int take_text(struct place *place, const char *text, size_t length) {
  for (size_t i = 0; i < length; i++) {
    if (place->lines == MOST_LINES) return 0;
    if (text[i] == '\n') {
      end_line(place);
      continue;
    }
    if (place->column + (uint32_t)place->feed >= MOST_BYTES) return 0;
    if (place->feed) take_byte(place, '\r');
    place->feed = text[i] == '\r';
    if (!place->feed) take_byte(place, text[i]);
  }
  return 1;
}

/* ---- calls ---- */

/* The program's arguments for these settings. */
static void put_words(vsm *bench, const vsm_settings *settings) {
  static const char *const options[] = {"--low", "--high", "--residence", "--history"};
  const uint32_t numbers[] = {settings->low, settings->high, settings->residence, settings->history};
  strcpy(bench->words[bench->count++], "vsm");
  for (int i = 0; i < 4; i++) {
    if (!numbers[i]) continue;
    strcpy(bench->words[bench->count++], options[i]);
    snprintf(bench->words[bench->count++], sizeof *bench->words, "%lu", (unsigned long)numbers[i]);
  }
}

/* Runs the program up to its first read. */
static int start(vsm *bench) {
  int flags = MAP_PRIVATE | MAP_ANONYMOUS | MAP_NORESERVE | MAP_STACK;
  char *stack = mmap(NULL, STACK, PROT_READ | PROT_WRITE, flags, -1, 0);
  if (stack == MAP_FAILED) return VSM_NO_MEMORY;
  bench->stack = stack;
  if (mprotect(stack, GUARD, PROT_NONE) || getcontext(&bench->program)) return bench->is_over = 1, VSM_NO_MEMORY;
  bench->program.uc_stack.ss_sp = stack;
  bench->program.uc_stack.ss_size = STACK;
  makecontext(&bench->program, run, 0);
  resume(bench, NULL, 0);
  if (!bench->is_over) return VSM_OK;
  return strcmp(bench->message, "vsm: memory") ? VSM_SETTING : VSM_NO_MEMORY;
}

int vsm_open(const vsm_settings *settings, vsm **bench) {
  vsm_settings own = VSM_SETTINGS;
  vsm *made;
  int code;
  if (!bench) return VSM_NULL;
  *bench = NULL;
  if (settings) {
    size_t known = settings->size < sizeof own ? offsetof(vsm_settings, memory) : sizeof own;
    if (settings->size < known || settings->size > MOST_BYTES) return VSM_SETTING;
    for (size_t i = known; i < settings->size; i++)
      if (((const char *)settings)[i]) return VSM_SETTING;
    memcpy(&own, settings, known);
  }
  made = calloc(1, sizeof *made);
  if (!made) return VSM_NO_MEMORY;
  made->memory = own.memory;
  put_words(made, &own);
  code = start(made);
  if (code != VSM_OK) vsm_close(&made);
  *bench = made;
  return code;
}

/* Whether the program ended before its script did: a write failed, since there was no memory for an answer. */
static int is_lost(const vsm *bench) { return bench->is_over && bench->status != 0 && bench->status != 4; }

/* Why the script can't continue, or VSM_OK. */
static int refusal(const vsm *bench) {
  return !bench ? VSM_NULL : is_lost(bench) ? VSM_LOST : bench->is_ending ? VSM_ENDED : VSM_OK;
}

int vsm_write(vsm *bench, const char *text, size_t length) {
  struct place place;
  int code = refusal(bench);
  if (code == VSM_NULL || (!text && length)) return VSM_NULL;
  if (length > PTRDIFF_MAX) return VSM_LENGTH;
  if (code != VSM_OK) return code;
  place = bench->place;
  if (!take_text(&place, text, length)) return VSM_TOO_LONG;
  bench->place = place;
  if (length) resume(bench, text, length);
  return is_lost(bench) ? VSM_LOST : VSM_OK;
}

int vsm_ask(vsm *bench, const char *statement, const char **answer) {
  struct place place;
  size_t length, left, begin;
  int needs_feed, code = refusal(bench);
  if (code == VSM_NULL || !statement || !answer) return VSM_NULL;
  if (code != VSM_OK) return code;
  place = bench->place;
  if (place.is_open || place.column || place.feed) return VSM_STATEMENT;
  length = strlen(statement);
  needs_feed = !length || statement[length - 1] != '\n';
  if (!take_text(&place, statement, length) || !take_text(&place, "\n", (size_t)needs_feed)) return VSM_TOO_LONG;
  if (place.is_open || place.begun != bench->place.begun + 1) return VSM_STATEMENT;
  bench->place = place;
  left = bench->length - bench->taken;
  resume(bench, statement, length);
  if (needs_feed) resume(bench, "\n", 1);
  begin = bench->taken + left;
  if (is_lost(bench) || bench->length < begin + NUMBER + 1) return VSM_LOST;
  bench->out[bench->length - 1] = '\0';
  bench->length = begin;
  *answer = bench->out + begin + NUMBER;
  return VSM_OK;
}

int vsm_read(vsm *bench, char *room, size_t size, size_t *length) {
  if (!bench || !length || (!room && size)) return VSM_NULL;
  if (size > PTRDIFF_MAX) return VSM_LENGTH;
  *length = bench->length - bench->taken;
  if (!room) return VSM_OK;
  if (*length > size) *length = size;
  if (*length) memcpy(room, bench->out + bench->taken, *length);
  bench->taken += *length;
  return VSM_OK;
}

int vsm_end(vsm *bench, int *status) {
  int code = refusal(bench);
  if (code == VSM_NULL || !status) return VSM_NULL;
  if (code != VSM_OK) return code;
  bench->is_ending = 1;
  resume(bench, NULL, 0);
  if (is_lost(bench)) return VSM_LOST;
  *status = bench->status;
  return VSM_OK;
}

uint32_t vsm_lines(const vsm *bench) { return bench ? bench->place.lines : 0; }

void vsm_close(vsm **bench) {
  vsm *old = bench ? *bench : NULL;
  if (!old) return;
  *bench = NULL;
  old->is_ending = 1;
  if (old->stack) {
    resume(old, NULL, 0); /* at the end of its script the program frees its memory */
    munmap(old->stack, STACK);
  }
  free(old->out);
  free(old);
}
