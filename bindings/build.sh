#!/bin/sh
# Makes bindings/out/libmarlowe.a and, of it, bindings/out/libmarlowe.so: the library of crates/marlowe_library with the toolchain's two archives in C.
# Needs cc and ar. The proved library is made first where there is none.
set -e
here=$(cd "$(dirname "$0")" && pwd)
kit=$(cd "$(dirname "$(readlink -f "$(command -v rt)")")/.." && pwd)
made=$here/../crates/marlowe_library/out/libmarlowe_library.a
[ -f "$made" ] || (cd "$here/../crates/marlowe_library" && rt lib)
mkdir -p "$here/out"
cd "$here/out"
rm -f libmarlowe.a
printf 'CREATE libmarlowe.a\nADDLIB %s\nADDLIB %s\nADDLIB %s\nSAVE\nEND\n' "$made" "$kit/c/liblibc_c.a" "$kit/c/libos_c.a" | ar -M
printf '{ global: marlowe_*; local: *; };\n' > names
cc -shared -o libmarlowe.so -Wl,--whole-archive "$made" -Wl,--no-whole-archive "$kit/c/liblibc_c.a" "$kit/c/libos_c.a" -Wl,--version-script=names
rm names
echo "made $here/out/libmarlowe.a and libmarlowe.so"
