# What ./draw and ./install share; not run but read by them, after $root is the clone's folder.
# shellcheck shell=bash
archive=$root/target/staticlib/libmerlontrispa.a

say() { echo "./${0##*/}: $*" >&2; }
end() { say "$*"; exit 1; }
need() { command -v "$1" >/dev/null || end "$1 is needed, and is not installed or not in PATH"; }

# Whether the archive is missing, or older than what it is proved and built from. What rt makes in
# crates/NAME/out does not count.
out_of_date() {
  [ ! -e "$archive" ] ||
    [ -n "$(find "$root"/crates/*/* "$root/crates.txt" -name out -prune -o -newer "$archive" -print -quit)" ]
}

build_archive() {
  say "proving and building the library, a line for each crate: some minutes the first time"
  "$root/tools/staticlib" >&2 || end "the library was not built"
}
