#!/bin/sh
# Makes a library of C of a crate's archive and of the kit's, whose one object asks malloc and free. Global are the crate's names alone.
#     c_library.sh ARCHIVE KIT_ARCHIVE NAME     leaves NAME.a and NAME.so, or what was there
set -e
made=$(realpath "$1") heap=$(realpath "$2") name=$(realpath -m "$3")
folder=$(mktemp -d "$name.XXXXXX")
trap 'rm -rf "$folder"' EXIT
cd "$folder"
nm -g --defined-only "$made" | awk '$2 == "T" { print $3 }' > names
ar x "$made"
ar x "$heap"
ld -r -o whole.o ./*.o
objcopy --keep-global-symbols=names whole.o
ar rcs whole.a whole.o
cc -shared -o whole.so -Wl,-soname,"$(basename "$name").so" -Wl,-z,defs -Wl,-z,noexecstack -Wl,--whole-archive whole.a -Wl,--no-whole-archive
mv whole.a "$name.a"
mv whole.so "$name.so"
