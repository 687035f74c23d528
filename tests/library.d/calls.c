/* Each misuse has its code and leaves the bench as it was, and a host may have done what it likes. */
#define _GNU_SOURCE
#include "check.h"

#include <errno.h>
#include <fcntl.h>
#include <signal.h>
#include <sys/time.h>
#include <sys/wait.h>
#include <unistd.h>

static const vsm_settings usual = VSM_SETTINGS;

static vsm *opened(void) {
  vsm *bench;
  IS(vsm_open(&usual, &bench), VSM_OK);
  return bench;
}

static void texts(void) {
  int i, known = 0;
  SAYS(vsm_version(), VSM_VERSION);
  IS(vsm_version_number(), VSM_VERSION_NUMBER);
  for (i = -2; i < 100; i++) known += strcmp(vsm_strerror(i), "no code of this library") != 0;
  IS(known, 9);
}

static void settings(void) {
  static const uint32_t wrong[][4] = {
      {5, 0, 0, 0}, {6, 0, 0, 0}, {16364, 0, 0, 0}, {UINT32_MAX, 0, 0, 0}, {0, 5, 0, 0}, {0, 1572868, 0, 0},
      {0, UINT32_MAX, 0, 0}, {0, 0, 1, 0}, {0, 0, 25, 0}, {0, 0, UINT32_MAX, 0}, {0, 0, 0, 65537},
      {0, 0, 0, UINT32_MAX}};
  struct {
    vsm_settings known;
    char more[8];
  } later = {VSM_SETTINGS, {0}};
  vsm_settings own;
  const char *answer;
  vsm *bench = NULL;
  size_t i;
  IS(vsm_open(&usual, NULL), VSM_NULL);
  for (i = 0; i < sizeof wrong / sizeof *wrong; i++) {
    own = usual;
    own.low = wrong[i][0];
    own.high = wrong[i][1];
    own.residence = wrong[i][2];
    own.history = wrong[i][3];
    bench = (vsm *)&own;
    IS(vsm_open(&own, &bench), VSM_SETTING);
    IS(bench == NULL, 1);
  }
  own = usual;
  own.low = 96, own.high = 128, own.residence = 31, own.history = 2;
  IS(vsm_open(&own, &bench), VSM_OK);
  IS(vsm_ask(bench, " STORAGE OBTAIN,LENGTH=98304", &answer), VSM_OK);
  SAYS(answer, "RC=0 A=08000000 L=00018000");
  vsm_close(&bench);
  IS(vsm_open(NULL, &bench), VSM_OK);
  IS(vsm_ask(bench, " STORAGE OBTAIN,LENGTH=65536", &answer), VSM_OK);
  SAYS(answer, "RC=0 A=00006000 L=00010000");
  vsm_close(&bench);
  /* Hosts of a version without the last setting are served. */
  for (i = 0; i <= offsetof(vsm_settings, memory); i += 4) {
    own = usual;
    own.size = i;
    own.memory = UINT64_MAX;
    IS(vsm_open(&own, &bench), i < offsetof(vsm_settings, memory) ? VSM_SETTING : VSM_OK);
    vsm_close(&bench);
  }
  own.size = sizeof own - 1;
  IS(vsm_open(&own, &bench), VSM_SETTING);
  own.size = SIZE_MAX;
  IS(vsm_open(&own, &bench), VSM_SETTING);
  later.known.size = sizeof later;
  IS(vsm_open(&later.known, &bench), VSM_OK);
  vsm_close(&bench);
  later.more[7] = 1;
  IS(vsm_open(&later.known, &bench), VSM_SETTING);
}

static void nulls(void) {
  const char *answer = "-";
  size_t length = 9;
  int status = -5;
  vsm *none = NULL, *bench;
  IS(vsm_write(NULL, "x", 1), VSM_NULL);
  IS(vsm_write(NULL, NULL, 0), VSM_NULL);
  IS(vsm_ask(NULL, " MAP", &answer), VSM_NULL);
  IS(vsm_read(NULL, NULL, 0, &length), VSM_NULL);
  IS(vsm_end(NULL, &status), VSM_NULL);
  IS(vsm_lines(NULL), 0);
  vsm_close(NULL);
  vsm_close(&none);
  bench = opened();
  IS(vsm_write(bench, NULL, 0), VSM_OK);
  IS(vsm_write(bench, "", 0), VSM_OK);
  IS(vsm_write(bench, NULL, 1), VSM_NULL);
  IS(vsm_write(bench, NULL, SIZE_MAX), VSM_NULL);
  IS(vsm_write(bench, "x", SIZE_MAX), VSM_LENGTH);
  IS(vsm_write(bench, "x", (size_t)PTRDIFF_MAX + 1), VSM_LENGTH);
  IS(vsm_ask(bench, NULL, &answer), VSM_NULL);
  IS(vsm_ask(bench, " MAP", NULL), VSM_NULL);
  IS(vsm_read(bench, NULL, 1, &length), VSM_NULL);
  IS(vsm_read(bench, (char *)&status, 1, NULL), VSM_NULL);
  IS(vsm_read(bench, (char *)&status, SIZE_MAX, &length), VSM_LENGTH);
  IS(vsm_end(bench, NULL), VSM_NULL);
  IS(length, 9);
  SAYS(answer, "-");
  IS(status, -5);
  IS(vsm_lines(bench), 0);
  IS(vsm_ask(bench, " BACK 0", &answer), VSM_OK);
  SAYS(answer, "KEPT=0");
  IS(vsm_lines(bench), 1);
  vsm_close(&bench);
  IS(bench == NULL, 1);
  IS(vsm_write(bench, "x", 1), VSM_NULL);
  vsm_close(&bench);
}

static void statements(void) {
  static const char *const wrong[] = {
      "", "\n", "* comment", "* comment\n", "          ", " BACK 0\n BACK 0", " BACK 0\n BACK 0\n", "\n* c\n",
      " BACK 0                                                                X",
      " BACK 0                                                                X\n",
      " BACK 0                                                                X\r\n"};
  const char *answer;
  char room[64];
  size_t length, i;
  vsm *bench = opened();
  for (i = 0; i < sizeof wrong / sizeof *wrong; i++) IS(vsm_ask(bench, wrong[i], &answer), VSM_STATEMENT);
  IS(vsm_lines(bench), 0);
  IS(vsm_ask(bench, "* c\n\n BACK 0\n\n", &answer), VSM_OK);
  SAYS(answer, "KEPT=0");
  IS(vsm_lines(bench), 4);
  IS(vsm_ask(bench, " STORAGE OBTAIN,                                                       X\n"
                    "               LENGTH=8", &answer), VSM_OK);
  SAYS(answer, "RC=0 A=00006000 L=00000008");
  IS(vsm_ask(bench, " STORAGE OBTAIN,                                                       X\n"
                    " wrong                                                                 X\n"
                    " dropped", &answer), VSM_OK);
  SAYS(answer, "FAULT CONTINUATION");
  /* Parts of lines; what is open keeps vsm_ask out. */
  IS(vsm_write(bench, " BA", 3), VSM_OK);
  IS(vsm_ask(bench, " BACK 0", &answer), VSM_STATEMENT);
  IS(vsm_read(bench, room, sizeof room, &length), VSM_OK);
  IS(length, 0);
  IS(vsm_write(bench, "CK 0\n\n* c\n", 10), VSM_OK);
  IS(vsm_read(bench, NULL, 0, &length), VSM_OK);
  IS(length, 15);
  IS(vsm_read(bench, room, 7, &length), VSM_OK);
  IS(length, 7);
  IS(memcmp(room, "0000010", 7), 0);
  IS(vsm_ask(bench, " BACK 1", &answer), VSM_OK);
  SAYS(answer, "KEPT=0");
  IS(vsm_read(bench, room, sizeof room, &length), VSM_OK);
  IS(length, 8);
  IS(memcmp(room, " KEPT=1\n", 8), 0);
  SAYS(answer, "KEPT=0");
  IS(vsm_read(bench, room, sizeof room, &length), VSM_OK);
  IS(length, 0);
  IS(vsm_ask(bench, " MAP", &answer), VSM_OK);
  IS(strncmp(answer, "MAP\n TASK 1 PARENT 0 CURRENT\n", 29), 0);
  SAYS(answer + strlen(answer) - 24, "\n HISTORY KEPT 0 OF 1024");
  vsm_close(&bench);
}

static void ends(void) {
  const char *answer;
  char room[64];
  size_t length;
  int status = -5;
  vsm *bench = opened();
  IS(vsm_end(bench, &status), VSM_OK);
  IS(status, 0);
  IS(vsm_end(bench, &status), VSM_ENDED);
  IS(vsm_write(bench, " MAP\n", 5), VSM_ENDED);
  IS(vsm_write(bench, NULL, 0), VSM_ENDED);
  IS(vsm_ask(bench, " MAP", &answer), VSM_ENDED);
  IS(vsm_read(bench, room, sizeof room, &length), VSM_OK);
  IS(length, 0);
  vsm_close(&bench);
  bench = opened();
  IS(vsm_write(bench, " BACK 0\n WRONG", 14), VSM_OK);
  IS(vsm_end(bench, &status), VSM_OK);
  IS(status, 4);
  IS(vsm_read(bench, room, sizeof room, &length), VSM_OK);
  IS(length, 39);
  IS(vsm_read(bench, room, sizeof room, &length), VSM_OK);
  IS(length, 0);
  vsm_close(&bench);
}

static void bounds(void) {
  static char big[70002];
  const char *answer;
  size_t length;
  int i, status;
  vsm *bench = opened();
  memset(big, 'A', sizeof big);
  big[70000] = '\n';
  IS(vsm_write(bench, big, 70001), VSM_TOO_LONG);
  big[70000] = '\0';
  IS(vsm_ask(bench, big, &answer), VSM_TOO_LONG);
  big[65537] = '\0';
  IS(vsm_ask(bench, big, &answer), VSM_TOO_LONG);
  IS(vsm_write(bench, big, 65537), VSM_TOO_LONG);
  big[0] = '*';
  IS(vsm_write(bench, big, 65536), VSM_OK);
  IS(vsm_write(bench, "A", 1), VSM_TOO_LONG);
  IS(vsm_write(bench, "\r", 1), VSM_TOO_LONG);
  IS(vsm_write(bench, "\n", 1), VSM_OK);
  memset(big, '\n', sizeof big);
  for (i = 0; i < 16; i++) IS(vsm_write(bench, big, 65535), VSM_OK); /* 1,048,561 lines */
  IS(vsm_write(bench, big, 16), VSM_TOO_LONG);
  IS(vsm_write(bench, big, 14), VSM_OK);
  IS(vsm_ask(bench, " BACK 0\n\n", &answer), VSM_TOO_LONG);
  IS(vsm_ask(bench, " BACK 0", &answer), VSM_OK);
  SAYS(answer, "KEPT=0");
  IS(vsm_lines(bench), 1048576);
  IS(vsm_write(bench, "\n", 1), VSM_TOO_LONG);
  IS(vsm_write(bench, " ", 1), VSM_TOO_LONG);
  IS(vsm_read(bench, NULL, 0, &length), VSM_OK);
  IS(length, 0);
  IS(vsm_end(bench, &status), VSM_OK);
  IS(status, 0);
  vsm_close(&bench);
}

/* Much is written and nothing read, or each time a byte less than was written; then all of it is there. */
static void much(void) {
  enum { MAPS = 5000, MAP = 301 };
  static char text[MAPS * 5], room[1 << 16];
  const char *answer;
  size_t i, length, all[2] = {0, 0};
  for (i = 0; i < MAPS; i++) memcpy(text + i * 5, " MAP\n", 5);
  for (i = 0; i < 2; i++) {
    int code = VSM_OK, k;
    vsm *bench = opened();
    if (i == 0) code = vsm_write(bench, text, sizeof text);
    for (k = 0; i == 1 && k < MAPS && code == VSM_OK; k++) {
      code = vsm_write(bench, " MAP\n", 5);
      if (code == VSM_OK) code = vsm_read(bench, room, MAP - 1, &length);
      all[i] += length;
    }
    IS(code, VSM_OK);
    IS(vsm_ask(bench, " BACK 0", &answer), VSM_OK);
    SAYS(answer, "KEPT=0");
    while ((code = vsm_read(bench, room, sizeof room, &length)) == VSM_OK && length) all[i] += length;
    IS(code, VSM_OK);
    IS(all[i], MAPS * MAP);
    vsm_close(&bench);
  }
}

static volatile sig_atomic_t came;
static void note(int number) { (void)number, came++; }

/* A host that is interrupted all the time, and one that blocks a signal after it opened a bench. */
static void interruptions(void) {
  struct itimerval often = {{0, 500}, {0, 500}}, never = {{0, 0}, {0, 0}};
  const char *answer;
  sigset_t mask, was, now;
  int wrong = 0;
  vsm *bench = opened();
  signal(SIGALRM, note);
  setitimer(ITIMER_REAL, &often, NULL);
  for (int i = 0; i < 4000 || came < 20; i++) wrong += vsm_ask(bench, " BACK 0", &answer) != VSM_OK;
  IS(wrong, 0);
  sigfillset(&mask);
  pthread_sigmask(SIG_SETMASK, &mask, &was);
  came = 0;
  for (int i = 0; i < 1000 || (sigpending(&now), !sigismember(&now, SIGALRM)); i++) vsm_ask(bench, " BACK 0", &answer);
  IS(came, 0);
  pthread_sigmask(SIG_SETMASK, &was, &now);
  IS(sigismember(&now, SIGALRM) && sigismember(&now, SIGTERM), 1);
  IS(came > 0, 1);
  setitimer(ITIMER_REAL, &never, NULL); /* another may still follow */
  IS(vsm_ask(bench, " BACK 0", &answer), VSM_OK);
  pthread_sigmask(SIG_SETMASK, NULL, &now);
  IS(sigismember(&now, SIGALRM), 0);
  vsm_close(&bench);
}

/* A host without standard streams; no file is opened. */
static void streams(void) {
  const char *answer;
  int status, file, open = 0;
  vsm *bench;
  fflush(stdout);
  if (!fork()) {
    close(0), close(1), close(2);
    status = vsm_open(&usual, &bench) != VSM_OK || vsm_ask(bench, " BACK 0", &answer) != VSM_OK ||
             strcmp(answer, "KEPT=0");
    for (file = 0; file < 3; file++) open += fcntl(file, F_GETFD) >= 0;
    vsm_close(&bench);
    _exit(status || open);
  }
  wait(&status);
  IS(status, 0);
}

int main(void) {
  texts();
  nulls();
  settings();
  statements();
  ends();
  bounds();
  much();
  interruptions();
  streams();
  return done();
}
