// What a program calls of the C library, for a WebAssembly module: a heap, and calls to the host. Compiled for wasm64;
// the module is then lowered to wasm32, so no address reaches 4 GiB.
typedef unsigned char byte;
typedef int i32;
typedef unsigned int u32;
typedef long i64;
typedef unsigned long u64;

#define FROM_HOST(name) __attribute__((import_module("env"), import_name(name)))
FROM_HOST("read") i64 host_read(i32 stream, byte *to, u64 most);
FROM_HOST("write") i64 host_write(i32 stream, const byte *from, u64 count);
FROM_HOST("open") i32 host_open(const char *path, u64 length);
FROM_HOST("arg") i64 host_argument(u64 index, byte *to, u64 most);

// The heap. A block's size is a power of two. Its first 16 bytes hold that power and, while it's free, the next free
// block of the same size; the caller gets the rest.
enum { LEAST_POWER = 5, GREATEST_POWER = 30, HEAD = 16, WASM_PAGE = 65536, PAGES_AT_ONCE = 64 };

typedef struct Block {
  u64 power;
  struct Block *next;
} Block;

typedef struct {
  u64 succeeded;
  byte *bytes;
} Allocated;

extern byte __heap_base;
static u64 heap_end;
static Block *free_blocks[GREATEST_POWER + 1];
static byte of_no_bytes[HEAD] __attribute__((aligned(HEAD)));

// Grows the memory up to `end`. The result of memory.grow isn't used: the lowering extends its -1 without a sign.
static i32 reaches(u64 end) {
  u64 pages = __builtin_wasm_memory_size(0);
  if (end <= pages * WASM_PAGE) return 1;
  u64 more = (end - pages * WASM_PAGE + WASM_PAGE - 1) / WASM_PAGE;
  __builtin_wasm_memory_grow(0, more < PAGES_AT_ONCE ? PAGES_AT_ONCE : more);
  if (end > __builtin_wasm_memory_size(0) * WASM_PAGE) __builtin_wasm_memory_grow(0, more);
  return end <= __builtin_wasm_memory_size(0) * WASM_PAGE;
}

static byte *allocate(u64 bytes) {
  if (bytes == 0) return of_no_bytes;
  if (bytes > (1ul << GREATEST_POWER) - HEAD) return 0;
  u64 power = LEAST_POWER;
  while ((1ul << power) < bytes + HEAD) power++;
  Block *block = free_blocks[power];
  if (block) {
    free_blocks[power] = block->next;
  } else {
    if (!heap_end) heap_end = ((u64)&__heap_base + HEAD - 1) & ~(u64)(HEAD - 1);
    if (!reaches(heap_end + (1ul << power))) return 0;
    block = (Block *)heap_end;
    heap_end += 1ul << power;
  }
  block->power = power;
  return (byte *)block + HEAD;
}

void rattle_dealloc(byte *bytes) {
  if (!bytes || bytes == of_no_bytes) return;
  Block *block = (Block *)(bytes - HEAD);
  block->next = free_blocks[block->power];
  free_blocks[block->power] = block;
}

Allocated rattle_alloc(u64 bytes, u64 alignment) {
  byte *got = alignment <= HEAD ? allocate(bytes) : 0;
  return (Allocated){got != 0, got};
}

Allocated rattle_realloc(byte *old, u64 old_bytes, u64 bytes, u64 alignment) {
  Allocated got = rattle_alloc(bytes, alignment);
  if (!got.succeeded) return (Allocated){0, old};
  __builtin_memcpy(got.bytes, old, old_bytes < bytes ? old_bytes : bytes);
  rattle_dealloc(old);
  return got;
}

// The system's calls. The error numbers are Linux's. A folder is all that can't be read here.
enum { NO_SUCH_FILE = 2, IS_A_FOLDER = 21, INVALID = 22, RANGE = 34 };
static i32 error_number;

i32 rattle_errno(void) { return error_number; }
void rattle_set_errno(i32 number) { error_number = number; }
u64 rattle_arg(u64 index, byte *to, u64 most) { return host_argument(index, to, most); }
u64 rattle_env(byte *name, byte *to, u64 most) { return -1ul; }
u64 rattle_env_at(u64 index, byte *to, u64 most) { return -1ul; }
i64 write(i32 stream, const byte *from, u64 count) { return host_write(stream, from, count); }
i64 __write(i32 stream, const byte *from, u64 count) { return host_write(stream, from, count); }
i32 close(i32 stream) { return 0; }
i32 isatty(i32 stream) { return 0; }
i32 __xpg_strerror_r(i32 number, byte *to, u64 most) {
  const char *text = number == NO_SUCH_FILE ? "No such file or directory"
                     : number == IS_A_FOLDER ? "Is a directory" : "Invalid argument";
  for (u64 i = 0; i < most; i++)
    if (!(to[i] = text[i])) return 0;
  return RANGE;
}
i64 __sysv_signal(i32 number, i64 handler) { return 0; }
// There is no clock: a program reads one only to show its progress at a terminal.
i32 clock_gettime(i32 clock, void *to) {
  error_number = INVALID;
  return -1;
}

i64 read(i32 stream, byte *to, u64 most) {
  i64 count = host_read(stream, to, most);
  if (count < 0) error_number = IS_A_FOLDER;
  return count;
}

i32 open(const char *path, i32 flags, ...) {
  u64 length = 0;
  while (path[length]) length++;
  i32 stream = host_open(path, length);
  if (stream < 0) error_number = NO_SUCH_FILE;
  return stream;
}

// A program built for x86-64-v2 asks at its start which features the processor has. Here: all.
const byte *__x86_get_cpuid_feature_leaf(u32 leaf) {
  static const u32 all[16] = {-1, -1, -1, -1, -1, -1, -1, -1, -1, -1, -1, -1, -1, -1, -1, -1};
  return (const byte *)all;
}

// Functions that the compiler itself calls by name.
i32 memcmp(const void *left, const void *right, u64 count) {
  const byte *a = left, *b = right;
  for (u64 i = 0; i < count; i++)
    if (a[i] != b[i]) return a[i] - b[i];
  return 0;
}

typedef unsigned __int128 u128;
typedef union {
  u128 whole;
  struct {
    u64 low, high;
  } half;
} Wide;

u128 __ashlti3(u128 value, i32 by) {
  Wide given = {value}, moved;
  if (by == 0) return value;
  moved.half.low = by < 64 ? given.half.low << by : 0;
  moved.half.high = by < 64 ? given.half.high << by | given.half.low >> (64 - by) : given.half.low << (by - 64);
  return moved.whole;
}

u128 __lshrti3(u128 value, i32 by) {
  Wide given = {value}, moved;
  if (by == 0) return value;
  moved.half.high = by < 64 ? given.half.high >> by : 0;
  moved.half.low = by < 64 ? given.half.low >> by | given.half.high << (64 - by) : given.half.high >> (by - 64);
  return moved.whole;
}

u128 __multi3(u128 left, u128 right) {
  Wide a = {left}, b = {right}, product;
  u64 mask = 0xffffffff, p = a.half.low, q = b.half.low;
  u64 low = (p & mask) * (q & mask), one = (p & mask) * (q >> 32), other = (p >> 32) * (q & mask);
  u64 middle = (low >> 32) + (one & mask) + (other & mask);
  product.half.low = (low & mask) | middle << 32;
  product.half.high = (p >> 32) * (q >> 32) + (one >> 32) + (other >> 32) + (middle >> 32) + a.half.high * q +
                      p * b.half.high;
  return product.whole;
}
