"""A library that is put before the C library: it counts the blocks of memory, and refuses one growth of a given number."""
import os
import shutil
import subprocess
from collections.abc import Sequence
from dataclasses import dataclass

SECONDS = 60
SOURCE = r"""
extern void *__libc_malloc(unsigned long size);
extern void *__libc_calloc(unsigned long count, unsigned long size);
extern void *__libc_realloc(void *block, unsigned long size);
extern void __libc_free(void *block);
extern char *getenv(const char *name);
extern int atoi(const char *text);
extern int snprintf(char *text, unsigned long size, const char *format, ...);
extern long write(int file, const void *bytes, unsigned long count);

static unsigned long growths, live;
static int refused;

static int is_refused(void) {
  const char *number = getenv("REFUSED_GROWTH");
  growths++;
  if (!number || growths != (unsigned long)atoi(number)) return 0;
  refused = 1;
  return 1;
}

static void *counted(void *block) { live += block != 0; return block; }

void *malloc(unsigned long size) { return is_refused() ? 0 : counted(__libc_malloc(size)); }
void *calloc(unsigned long count, unsigned long size) { return is_refused() ? 0 : counted(__libc_calloc(count, size)); }
void *realloc(void *block, unsigned long size) {
  if (is_refused()) return 0;
  return block ? __libc_realloc(block, size) : counted(__libc_realloc(block, size));
}
void free(void *block) { live -= block != 0; __libc_free(block); }

__attribute__((destructor)) static void tell(void) {
  char text[96];
  int length = snprintf(text, sizeof text, "%lu %lu %d\n", growths, live, refused);
  write(atoi(getenv("COUNTS_TO")), text, length);
}
"""


@dataclass
class Counted:
    """What a program did under the library: how it ended, what it wrote, its growths, the blocks that are live at its
    end, and whether a growth was refused."""

    status: int
    output: bytes
    errors: bytes
    growths: int
    live: int
    refused: bool


def build(folder: str) -> str:
    """Builds the library in a folder with the system's C compiler, and returns its path."""
    source, library = os.path.join(folder, "counting.c"), os.path.join(folder, "counting.so")
    compiler = os.environ.get("CC", "cc")
    if not shutil.which(compiler):
        raise OSError("there is no C compiler %s: apt-get install gcc" % compiler)
    with open(source, "w", encoding="ascii") as file:
        file.write(SOURCE)
    subprocess.run([compiler, "-shared", "-fPIC", "-O1", "-fno-builtin", "-o", library, source], check=True,
                   timeout=SECONDS)
    return library


def run(library: str, words: Sequence[str], given: bytes = b"", refused_growth: int = 0) -> Counted:
    """Runs a program with this standard input and the growth of this number refused, none if it's 0."""
    reading, writing = os.pipe()
    env = dict(os.environ, LD_PRELOAD=library, REFUSED_GROWTH=str(refused_growth), COUNTS_TO=str(writing))
    try:
        done = subprocess.run(words, input=given, capture_output=True, env=env, timeout=SECONDS, check=False,
                              pass_fds=[writing])
        os.close(writing)
        growths, live, refused = map(int, os.read(reading, 4096).split())
    finally:
        os.close(reading)
    return Counted(done.returncode, done.stdout, done.stderr, growths, live, refused == 1)
