/* libvsm: the bench for C. It is the proved program vsm, in your process: what can be written and what is answered
   is what the program's documents say.

     vsm *bench;
     const char *answer;
     if (vsm_open(NULL, &bench) == VSM_OK) {
       if (vsm_ask(bench, " STORAGE OBTAIN,LENGTH=16", &answer) == VSM_OK) puts(answer);
       vsm_close(&bench);
     }

   Threads: the library has no state of its own, and a bench belongs to no thread. Calls on different benches can run at
   the same time; calls on one bench must follow each other. A call runs the program on a stack of 8 MiB that the bench
   has, of which memory is taken only for what is used.
   Fork: the child has a copy of each bench, and both continue by themselves. A bench on which another thread was within a
   call is of no use in the child.
   Signals: none is caught, blocked or raised, and the caller's mask holds during a call. A handler must make no call,
   and must not leave one by longjmp.
   A bench that is closed must not be used by a copy of its handle: that is undefined. */
#ifndef VSM_H
#define VSM_H

#include <stddef.h>
#include <stdint.h>

#ifdef __cplusplus
extern "C" {
#endif

#define VSM_VERSION "0.1.0"
#define VSM_VERSION_NUMBER 1000 /* 1000000 * major + 1000 * minor + patch */

/* The version of the library that is linked, in both forms. */
const char *vsm_version(void);
int vsm_version_number(void);

enum vsm_code {
  VSM_OK = 0,

  /* The call was refused. Nothing was taken, and the bench is as it was. */
  VSM_TOO_LONG = 8,   /* more than 1,048,576 lines, or a line of more than 65,536 bytes */
  VSM_NO_MEMORY = 16, /* vsm_open: no memory for a bench */
  VSM_SETTING = 17,   /* vsm_open: a setting is out of its limits */
  VSM_NULL = 20,      /* a null pointer that isn't allowed */
  VSM_LENGTH = 21,    /* a length that nothing in memory has */
  VSM_ENDED = 22,     /* the script has ended */
  VSM_STATEMENT = 23, /* vsm_ask: not exactly one whole statement, or another one is open */

  /* The bench is lost: there was no memory for an answer. Answers before it can be read; other calls return this code.
     A statement for which there is no memory loses nothing: its answer is REFUSED MEMORY. What it did get is kept for
     later statements until vsm_close: without the setting `memory` that may be all that your process can have. */
  VSM_LOST = 40
};

/* One line of text for any code, without a full stop. */
const char *vsm_strerror(int code);

typedef struct vsm vsm;

/* As the options of the program. 0 means its default: 64, 64, 24, 1024. Later versions add settings at the end;
   `size` says which ones exist: `memory` may be missing. */
typedef struct vsm_settings {
  size_t size;
  uint32_t low, high; /* regions below and above the line, in units of 1,024 bytes */
  uint32_t residence; /* 24 or 31 */
  uint32_t history;   /* changes that can be undone */
  uint64_t memory;    /* bytes that the bench may hold for its state, or 0 for no bound of its own */
} vsm_settings;
#define VSM_SETTINGS {sizeof(vsm_settings), 0, 0, 0, 0, 0}

/* Opens a bench with these settings, or for NULL with the defaults. With any code except VSM_OK *bench is NULL. */
int vsm_open(const vsm_settings *settings, vsm **bench);

/* Asks one statement of one or more lines, whose last line feed may be missing, and gives its whole answer without
   the number of its line and without the last line feed: "RC=0 A=00006000 L=00000010", or the many lines of a MAP.
   The text is valid until the next call on this bench. */
int vsm_ask(vsm *bench, const char *statement, const char **answer);

/* Writes bytes of the script: any number of lines, or parts of lines. Each statement is answered as soon as the line
   feed of its last line is written. For no bytes `text` may be NULL. */
int vsm_write(vsm *bench, const char *text, size_t length);

/* Gives answers that have not been read, as the program prints them: as many bytes as fit, and their number, which is
   0 if all have been read. With NULL and 0 it gives the number of bytes that are left. What vsm_ask gave isn't given
   again. */
int vsm_read(vsm *bench, char *room, size_t size, size_t *length);

/* Ends the script: a last line without a line feed and an open statement are answered. The status is the program's:
   0, or 4 if an answer was FAULT, REFUSED or ABEND. Answers can still be read. */
int vsm_end(vsm *bench, int *status);

/* The number of whole lines that were written, which after vsm_ask of one line is that line's number. */
uint32_t vsm_lines(const vsm *bench);

/* Frees all memory of the bench and sets *bench to NULL. NULL is allowed, and so is a second time. */
void vsm_close(vsm **bench);

#ifdef __cplusplus
}
#endif
#endif
