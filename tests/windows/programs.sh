# shellcheck shell=bash
# For the tests of gearcard.dll, which source it after scripts/kit.sh: programs for Windows, which run in Wine, and programs for Linux that load the DLL of the
# other processor by themselves.
# shellcheck disable=SC2154,SC2034  # top is theirs, and they use what is set here

# Debian's package wine64 has no command in the path.
wine=/usr/lib/wine/wine64
# Of its own, so that no other program of this user is in it.
export WINEPREFIX=$top/target/wine WINEDEBUG=-all WINEDLLOVERRIDES='mscoree=;mshtml='

# The processor of this machine and the other, with what runs its programs.
case $(uname -m) in
  x86_64) this=x86_64 other=aarch64 emulator=(qemu-aarch64 -L /usr/aarch64-linux-gnu) ;;
  *) this=aarch64 other=x86_64 emulator=() ;;
esac

# Wine with a prefix, and what makes programs for Windows: Debian's MinGW on x86-64, and on Arm, for which there is none, the kit's clang with MinGW's headers.
windows_ready() {
  if [ ! -x "$wine" ]; then needs "$wine" wine64 || return 1; fi
  needs x86_64-w64-mingw32-gcc gcc-mingw-w64-x86-64 || return 1
  if [ -e "$WINEPREFIX/.ready" ]; then return 0; fi
  mkdir -p "$WINEPREFIX" || return 1
  if ! "$wine" wineboot -i >"$WINEPREFIX/.said" 2>&1; then
    printf 'wine does not start: %s\n' "$(tail -n 1 "$WINEPREFIX/.said")" >&2
    return 1
  fi
  touch "$WINEPREFIX/.ready"
}

# windows_program OUT.exe SOURCE [WORD..]: a program of C for this processor's Windows, with gearcard.dll beside it. Its standard streams carry bytes.
windows_program() {
  local out=$1 lib=$top/target/lib/windows-$this
  mkdir -p "${out%/*}" && cp "$lib/gearcard.dll" "${out%/*}" || return 1
  if [ "$this" = x86_64 ]; then
    x86_64-w64-mingw32-gcc -O2 -I"$top/include" "${@:2}" "$top/tests/windows/binary.c" -L"$lib" -lgearcard -o "$out"
  else
    arm_program "$@"
  fi
}

# The same where there is no MinGW: the C library is Windows' own, ucrtbase.dll, by an import library of the names that the programs use.
arm_program() {
  local out=$1 source lib=$top/target/lib/windows-aarch64 room
  source=$(readlink -f "$2") || return 1
  find_kit
  room=$(mktemp -d) || return 1
  # The kit's clang has no headers of its own: the one that the programs use, and one that MinGW's headers name.
  printf '#define bool _Bool\n#define true 1\n#define false 0\n' >"$room/stdbool.h"
  : >"$room/mm_malloc.h"
  ln -s "$tools/bin/llvm-ar" "$room/llvm-dlltool" && ln -s "$tools/bin/ld.lld" "$room/lld-link" && ln -s "$tools/bin/clang" "$room/clang" &&
    "$room/llvm-dlltool" -m arm64 -d "$top/tests/windows/ucrt.def" -l "$room/ucrt.lib" &&
    (cd "$room" && "$room/clang" --target=aarch64-pc-windows-gnu --no-default-config -O2 -fno-stack-protector -I"$top/include" \
      -isystem "$room" -isystem /usr/x86_64-w64-mingw32/include -D_UCRT -D__USE_MINGW_ANSI_STDIO=0 -c "$source" "$top/tests/windows/start.c") &&
    "$room/lld-link" /nologo /machine:arm64 /subsystem:console /entry:mainCRTStartup /nodefaultlib "/out:$out" "$room"/*.o "$room/ucrt.lib" "$lib/gearcard.lib"
  set -- $?
  rm -rf "$room"
  return "$1"
}

other_ready() {
  if [ "$other" = aarch64 ]; then
    needs aarch64-linux-gnu-gcc gcc-aarch64-linux-gnu libc6-dev-arm64-cross && needs qemu-aarch64 qemu-user
  else
    emulator=(qemu-x86_64)
    needs x86_64-linux-gnu-gcc gcc-x86-64-linux-gnu libc6-dev-amd64-cross && needs qemu-x86_64 qemu-user
  fi
}

# loaded COMPILER OUT SOURCE: a program for Linux, with the loader. On x86-64 the functions are declared as Windows calls them.
loaded() {
  local room status
  room=$(mktemp -d) || return 1
  { printf '#define NAMES(X)' && sed -n '/^#/d; /gearcard_version/d; s/.*/ X(&)/p' "$top/include/exports.txt" | tr -d '\n' && printf '\n'; } >"$room/names.h"
  cp "$top/include/gearcard.h" "$room"
  [[ $1 != *x86_64* ]] || sed -i -E 's/^struct gearcard_[a-z]+ gearcard_[a-z_]+\(/__attribute__((ms_abi)) &/' "$room/gearcard.h"
  "$1" -std=gnu11 -O2 -I"$room" "$3" "$top/tests/windows/loader.c" -static -o "$2"
  status=$?
  rm -rf "$room"
  return "$status"
}

other_program() { # OUT SOURCE
  if [ "$other" = aarch64 ]; then loaded aarch64-linux-gnu-gcc "$@"; else loaded x86_64-linux-gnu-gcc "$@"; fi
}
