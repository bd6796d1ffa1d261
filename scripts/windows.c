/* What a Windows program takes from its C library and the proved module asks for: here, so that gearcard.dll imports nothing.
   __chkstk is the probe that the compiler calls where a frame is over a page: Windows commits a stack page by page, each when the one above it is touched. */
typedef __SIZE_TYPE__ size;
typedef unsigned char byte;
/* Named by an object in which floats are; here they are only carried, as bits. */
const int _fltused = 0;

typedef unsigned long long word __attribute__((aligned(1), may_alias));

/* Forwards: right where the places do not overlap, and where to is below from. */
static inline void up(byte *to, const byte *from, size n) {
  for (; n >= 8; n -= 8, to += 8, from += 8) *(word *)to = *(const word *)from;
  for (; n != 0; n--) *to++ = *from++;
}

void *memcpy(void *to, const void *from, size n) {
  up(to, from, n);
  return to;
}

void *memmove(void *to, const void *from, size n) {
  byte *t = to;
  const byte *f = from;
  if ((size)t - (size)f >= n) {
    up(t, f, n);
  } else {
    for (; n >= 8; n -= 8) *(word *)(t + n - 8) = *(const word *)(f + n - 8);
    for (; n != 0; n--) t[n - 1] = f[n - 1];
  }
  return to;
}

void *memset(void *to, int value, size n) {
  byte *t = to;
  word each = (byte)value * 0x0101010101010101ull;
  for (; n >= 8; n -= 8, t += 8) *(word *)t = each;
  for (; n != 0; n--) *t++ = (byte)value;
  return to;
}

#ifdef __x86_64__
/* rax bytes; changes no register. */
__asm__(".text\n"
        ".globl __chkstk\n"
        ".def __chkstk; .scl 2; .type 32; .endef\n"
        ".seh_proc __chkstk\n"
        "__chkstk:\n"
        "  subq $16, %rsp\n"
        "  .seh_stackalloc 16\n"
        "  .seh_endprologue\n"
        "  movq %r10, (%rsp)\n"
        "  movq %r11, 8(%rsp)\n"
        "  leaq 24(%rsp), %r10\n"
        "  movq %rax, %r11\n"
        "1: subq $4096, %r11\n"
        "  jbe 2f\n"
        "  subq $4096, %r10\n"
        "  testq %r10, (%r10)\n"
        "  jmp 1b\n"
        "2: leaq 24(%rsp), %r10\n"
        "  subq %rax, %r10\n"
        "  testq %r10, (%r10)\n"
        "  movq (%rsp), %r10\n"
        "  movq 8(%rsp), %r11\n"
        "  addq $16, %rsp\n"
        "  retq\n"
        ".seh_endproc\n");
#else
/* x15 times 16 bytes; may change x16 and x17. */
__asm__(".text\n"
        ".globl __chkstk\n"
        ".def __chkstk; .scl 2; .type 32; .endef\n"
        ".p2align 2\n"
        "__chkstk:\n"
        "  lsl x16, x15, #4\n"
        "  mov x17, sp\n"
        "1: sub x17, x17, #4096\n"
        "  subs x16, x16, #4096\n"
        "  ldr xzr, [x17]\n"
        "  b.gt 1b\n"
        "  ret\n");
#endif
