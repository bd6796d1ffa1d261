/* Maps a gearcard.dll into a Linux process of its processor, and gives its functions to the program that this is linked with: the DLL of a processor on which
   there is no Wine. It imports nothing and is relocated nowhere, so this is all that a loader has to do. The file is what DLL says, in the environment.

   The functions are called as Windows has it: on Arm as elsewhere there, on x86-64 the program has to declare them so (`ms_abi`). */
#include <fcntl.h>
#include <stdint.h>
#include <stdio.h>
#include <stdlib.h>
#include <string.h>
#include <sys/mman.h>
#include <sys/stat.h>

/* The names, one X(name) each: tests/windows/run writes it from include/exports.txt. */
#include "names.h"

#ifdef __x86_64__
enum { MACHINE = 0x8664 };
#else
enum { MACHINE = 0xaa64 };
#endif

static uint8_t *image;

static void die(const char *what) {
  fprintf(stderr, "loader: %s\n", what);
  exit(9);
}

static uint32_t u32(const uint8_t *at) {
  uint32_t value;
  memcpy(&value, at, sizeof value);
  return value;
}

static uint16_t u16(const uint8_t *at) {
  uint16_t value;
  memcpy(&value, at, sizeof value);
  return value;
}

/* Where a name of the DLL's table of exports stands. */
static void *exported(const uint8_t *directory, const char *name) {
  const uint8_t *table = image + u32(directory);
  for (uint32_t k = 0, n = u32(table + 24); k < n; k++) {
    const char *each = (const char *)image + u32(image + u32(table + 32) + 4 * k);
    if (strcmp(each, name) == 0) return image + u32(image + u32(table + 28) + 4 * u16(image + u32(table + 36) + 2 * k));
  }
  die(name);
  return NULL;
}

#define SLOT(name) void *slot_##name;
NAMES(SLOT)

/* What a section may be used for. */
static int allowed(uint32_t flags) {
  return (flags & 0x40000000 ? PROT_READ : 0) | (flags & 0x80000000 ? PROT_WRITE : 0) | (flags & 0x20000000 ? PROT_EXEC : 0);
}

__attribute__((constructor)) static void load(void) {
  const char *path = getenv("DLL");
  struct stat found;
  int file = open(path ? path : "gearcard.dll", O_RDONLY);
  if (file < 0 || fstat(file, &found) != 0) die("there is no DLL");
  const uint8_t *bytes = mmap(NULL, (size_t)found.st_size, PROT_READ, MAP_PRIVATE, file, 0);
  if (bytes == MAP_FAILED) die("the DLL cannot be read");
  const uint8_t *head = bytes + u32(bytes + 0x3c), *optional = head + 24, *sections = optional + u16(head + 20);
  if (u16(head + 4) != MACHINE || u16(optional) != 0x20b) die("the DLL is for another processor");
  size_t size = u32(optional + 56);
  image = mmap(NULL, size, PROT_READ | PROT_WRITE, MAP_PRIVATE | MAP_ANONYMOUS, -1, 0);
  if (image == MAP_FAILED) die("there is no memory");
  memcpy(image, bytes, u32(optional + 60));
  int count = u16(head + 6);
  for (int k = 0; k < count; k++) {
    const uint8_t *each = sections + 40 * k;
    uint32_t inside = u32(each + 8), kept = u32(each + 16);
    memcpy(image + u32(each + 12), bytes + u32(each + 20), inside < kept ? inside : kept);
  }
#define FIND(name) slot_##name = exported(optional + 112, #name);
  NAMES(FIND)
  __builtin___clear_cache((char *)image, (char *)image + size);
  for (int k = 0; k < count; k++) {
    const uint8_t *each = sections + 40 * k;
    if (mprotect(image + u32(each + 12), (u32(each + 8) + 4095) & ~4095u, allowed(u32(each + 36))) != 0) die("a section cannot be protected");
  }
}

/* Each function is a jump to the DLL's. */
#ifdef __x86_64__
#define JUMP(name) __asm__(".text\n.globl " #name "\n" #name ": jmp *slot_" #name "(%rip)\n");
#else
#define JUMP(name) __asm__(".text\n.globl " #name "\n" #name ": adrp x16, slot_" #name "\nldr x16, [x16, :lo12:slot_" #name "]\nbr x16\n");
#endif
NAMES(JUMP)
