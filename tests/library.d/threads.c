/* Threads with benches of their own, one that forks meanwhile, and benches that go from thread to thread and to a
   child. With the address or the thread sanitizer the forks come first, while no other thread runs: the allocator of
   either takes locks in each process, and doesn't hold them over a fork, at least in gcc 12. A child that is forked
   while another thread has one waits for it for ever. vsm.c has no lock, and the C library holds its own over a fork.
   Usage: threads THREADS BENCHES STATEMENTS */
#define _GNU_SOURCE
#include "check.h"

#include <pthread.h>
#include <sys/wait.h>
#include <unistd.h>

#ifndef __has_feature /* which clang has, in place of the names of gcc */
#define __has_feature(name) 0
#endif
#if defined __SANITIZE_ADDRESS__ || defined __SANITIZE_THREAD__ || __has_feature(address_sanitizer) \
    || __has_feature(thread_sanitizer)
enum { FORKS_FIRST = 1 };
#else
enum { FORKS_FIRST = 0 };
#endif
enum { SECONDS = 120 /* that a child has: then it's ended, which counts as wrong */ };

static int benches, statements;
static _Atomic int is_over;

static void *work(void *given) {
  long number = (long)given, wrong = 0;
  char statement[80], wanted[80], room[256];
  for (int i = 0; i < benches; i++) {
    vsm *bench;
    const char *answer;
    size_t length = 1, all = 0;
    int status;
    if (vsm_open(NULL, &bench) != VSM_OK) return (void *)(wrong + 1);
    for (int k = 0; k < statements; k++) {
      snprintf(statement, sizeof statement, " STORAGE OBTAIN,LENGTH=%ld", number * 8 + 8);
      snprintf(wanted, sizeof wanted, "RC=0 A=00006000 L=%08lX", number * 8 + 8);
      if (vsm_ask(bench, statement, &answer) != VSM_OK || strcmp(answer, wanted)) wrong++;
      if (vsm_ask(bench, " BACK 1", &answer) != VSM_OK || strcmp(answer, "KEPT=0")) wrong++;
    }
    for (int k = 0; k < statements; k++) wrong += vsm_write(bench, " MAP\n", 5) != VSM_OK;
    for (; length; all += length) wrong += vsm_read(bench, room, sizeof room, &length) != VSM_OK;
    wrong += all != (size_t)statements * 301;
    if (vsm_end(bench, &status) != VSM_OK || status) wrong++;
    vsm_close(&bench);
  }
  return (void *)wrong;
}

/* Asks in a child on the copy of a bench, and gives what went wrong there. */
static int wrong_in_child(vsm *bench, const char *wanted) {
  const char *answer;
  int status;
  pid_t child = fork();
  if (!child) {
    alarm(SECONDS);
    status = vsm_ask(bench, " BACK 1", &answer) != VSM_OK || strcmp(answer, wanted);
    vsm_close(&bench);
    _exit(status);
  }
  while (waitpid(child, &status, 0) < 0) {}
  if (WIFSIGNALED(status)) printf("a child was ended by signal %d\n", WTERMSIG(status));
  return status;
}

static void *fork_often(void *given) {
  const char *answer;
  vsm *bench;
  long wrong = vsm_open(NULL, &bench) != VSM_OK || vsm_ask(bench, " STORAGE OBTAIN,LENGTH=8", &answer) != VSM_OK;
  (void)given;
  for (int i = 0; !wrong && (i < 4 || (!is_over && i < 50)); i++) wrong += wrong_in_child(bench, "KEPT=0");
  wrong += vsm_ask(bench, " BACK 0", &answer) != VSM_OK || strcmp(answer, "KEPT=1");
  vsm_close(&bench);
  return (void *)wrong;
}

static void *elsewhere(void *given) {
  const char *answer;
  if (vsm_ask(given, " STORAGE OBTAIN,LENGTH=8", &answer) != VSM_OK) return (void *)1L;
  return (void *)(long)strncmp(answer, "RC=0 ", 5);
}

/* One bench: each statement is asked by another thread, and then by a child. */
static void wander(void) {
  const char *answer;
  char wanted[32];
  vsm *bench;
  IS(vsm_open(NULL, &bench), VSM_OK);
  for (int i = 1; i <= 20; i++) {
    pthread_t thread;
    void *wrong;
    IS(pthread_create(&thread, NULL, elsewhere, bench), 0);
    pthread_join(thread, &wrong);
    IS((long)wrong, 0);
    snprintf(wanted, sizeof wanted, "KEPT=%d", i - 1);
    if (i % 5 == 0) IS(wrong_in_child(bench, wanted), 0);
    snprintf(wanted, sizeof wanted, "KEPT=%d", i);
    IS(vsm_ask(bench, " BACK 0", &answer), VSM_OK);
    SAYS(answer, wanted);
  }
  vsm_close(&bench);
}

int main(int count, char **words) {
  pthread_t threads[200], forker;
  void *wrong;
  long many;
  if (count < 4) return 2;
  many = atol(words[1]), benches = atoi(words[2]), statements = atoi(words[3]);
  wander();
  if (FORKS_FIRST) IS((long)fork_often(NULL), 0);
  else pthread_create(&forker, NULL, fork_often, NULL);
  for (long i = 0; i < many; i++) IS(pthread_create(&threads[i], NULL, work, (void *)i), 0);
  for (long i = 0; i < many; i++) {
    pthread_join(threads[i], &wrong);
    IS((long)wrong, 0);
  }
  is_over = 1;
  if (FORKS_FIRST) return done();
  pthread_join(forker, &wrong);
  IS((long)wrong, 0);
  return done();
}
