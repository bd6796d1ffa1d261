/* Where a program for Windows begins that has no C library of MinGW, but Windows' own: its standard streams carry bytes, and its words are those of the
   command line. What MinGW has of its own around that library, printf and fprintf, is here. */
#include <fcntl.h>
#include <io.h>
#include <stdarg.h>
#include <stdio.h>
#include <stdlib.h>

int main(int argc, char **argv);
_CRTIMP int _configure_narrow_argv(int mode);

int printf(const char *format, ...) {
  va_list words;
  va_start(words, format);
  int done = __stdio_common_vfprintf(0, stdout, format, NULL, words);
  va_end(words);
  return done;
}

int fprintf(FILE *file, const char *format, ...) {
  va_list words;
  va_start(words, format);
  int done = __stdio_common_vfprintf(0, file, format, NULL, words);
  va_end(words);
  return done;
}

void mainCRTStartup(void) {
  _setmode(0, _O_BINARY);
  _setmode(1, _O_BINARY);
  _configure_narrow_argv(1);
  exit(main(*__p___argc(), *__p___argv()));
}
