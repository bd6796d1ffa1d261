/* Linked with a program for Windows that talks over pipes: its standard streams carry bytes, and no ends of lines. */
#include <fcntl.h>
#include <io.h>

__attribute__((constructor)) static void binary(void) {
  _setmode(0, _O_BINARY);
  _setmode(1, _O_BINARY);
}
