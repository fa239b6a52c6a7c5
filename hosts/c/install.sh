#!/bin/sh
# Installs the header, the proved library and a pkg-config file below a folder.
#
#     tools/staticlib && hosts/c/install.sh PREFIX
#     cc program.c $(PKG_CONFIG_PATH=PREFIX/lib/pkgconfig pkg-config --cflags --libs oof)
#
# DESTDIR, if set, stands before PREFIX where files are written, and not in what they say.
set -eu
[ $# -eq 1 ] || { echo "usage: hosts/c/install.sh PREFIX" >&2; exit 2; }
case $1 in /*) prefix=$1 ;; *) prefix=$PWD/$1 ;; esac
here=$(cd "$(dirname "$0")" && pwd)
library=${OOF_LIB:-$here/../../target/staticlib}/liboof_c.a
[ -f "$library" ] || { echo "hosts/c: no library: run 'tools/staticlib' first" >&2; exit 2; }
to=${DESTDIR:-}$prefix
mkdir -p "$to/include" "$to/lib/pkgconfig"
cp "$here/oof.h" "$to/include/oof.h"
cp "$library" "$to/lib/liboof_c.a"
cat > "$to/lib/pkgconfig/oof.pc" <<PC
prefix=$prefix
includedir=\${prefix}/include
libdir=\${prefix}/lib

Name: oof
Description: Out-of-flow placement by a dialogue over lent words: the proved static library oof_c
Version: 0.1.0
Cflags: -I\${includedir}
Libs: -L\${libdir} -loof_c
PC
echo "hosts/c: installed include/oof.h, lib/liboof_c.a and lib/pkgconfig/oof.pc below $prefix"
