#!/bin/sh
# Puts boxglue in place from this unpacked release: the program, the library for C, packages for Python and Rust, manual page, completions and documents.
#
#   ./install.sh [--prefix FOLDER] [--replace]     checks the sums of all files, and then copies them; FOLDER is ~/.local if it is not given
#   ./install.sh --uninstall [--prefix FOLDER]     removes what it has put in place, by the list share/boxglue/installed.tsv
#
# If the variable DESTDIR is set, all files go below that folder, but name only FOLDER. You may move FOLDER.
# An unproved release replaces proved files only with --replace. This script needs a shell and coreutils.
set -eu

fail() { # WHY
  echo "install.sh: $1" >&2
  exit 1
}

here=$(cd "$(dirname "$0")" && pwd)
prefix=${HOME:-}/.local
mode=install replace=no tab=$(printf '\t')
while [ $# -gt 0 ]; do
  case $1 in
    --prefix) [ $# -gt 1 ] || fail "--prefix needs a folder"; prefix=$2; shift ;;
    --prefix=*) prefix=${1#--prefix=} ;;
    --replace) replace=yes ;;
    --uninstall) mode=uninstall ;;
    *) fail "the words are [--prefix FOLDER] [--replace], or --uninstall [--prefix FOLDER]" ;;
  esac
  shift
done
case $prefix in
  /*) ;;
  *) prefix=$(pwd)/$prefix ;;
esac
top=${DESTDIR:-}$prefix
list=share/boxglue/installed.tsv

# Each line of the list: folder, text, proved or unproved; and a path below the prefix.
remove_all() {
  [ -f "$top/$list" ] || fail "$top/$list is not there: nothing says what was put in place"
  if cut -f2 "$top/$list" | grep -Eq '^/|(^|/)\.\.(/|$)'; then
    fail "$top/$list names a file that is not below $top"
  fi
  kept=$(mktemp)
  cat "$top/$list" > "$kept"
  while IFS=$tab read -r kind path; do
    [ "$kind" = folder ] || [ "$path" = "$list" ] || rm -f "$top/$path"
  done < "$kept"
  rm -f "$top/$list"
  LC_ALL=C sort -r "$kept" | while IFS=$tab read -r kind path; do
    [ "$kind" != folder ] || rmdir "$top/$path" 2> /dev/null || true
  done
  rm -f "$kept"
  echo "boxglue is removed from $top"
}

check_sums() {
  command -v sha256sum > /dev/null || fail "there is no sha256sum on the path: it belongs to coreutils"
  (cd "$here" && sha256sum --strict -c SHA256SUMS > /dev/null) || fail "the sums of SHA256SUMS are not those of the files: nothing is put in place"
  { echo FILES; cut -f2 "$here/FILES"; } | while IFS= read -r path; do
    cut -c67- "$here/SHA256SUMS" | grep -Fqx "$path" || fail "SHA256SUMS lacks $path: nothing is put in place"
  done || exit 1
}

# An unproved file does not replace a proved one.
keep_proved() {
  [ "$replace" = no ] && grep -q "^unproved$tab" "$here/FILES" || return 0
  if [ -f "$top/$list" ]; then
    ! grep -q "^proved$tab" "$top/$list" || fail "$top has proved files, and this release is not proved: add --replace to replace them"
  elif [ -f "$top/bin/boxglue" ]; then
    grep -q 'UNPROVED, with run-time checks' "$top/bin/boxglue" || fail "$top/bin/boxglue is proved, and this release is not: add --replace to replace it"
  fi
}

# Prints the folders above a path that are not there, as lines of the list.
lacking_folders() { # PATH
  folder=$(dirname "$1")
  while [ "$folder" != . ]; do
    [ -d "$top/$folder" ] || echo "folder$tab$folder"
    folder=$(dirname "$folder")
  done
}

# The list has all files before the first is copied, so that it misses none if this is stopped.
write_list() {
  new=$(mktemp)
  {
    printf 'text\t%s\n' "$list"
    cut -f1,3 "$here/FILES"
    for path in "$list" $(cut -f3 "$here/FILES"); do lacking_folders "$path"; done
    if [ -f "$top/$list" ]; then
      while IFS=$tab read -r kind path; do
        case $path in share/boxglue/python/boxglue-*.whl | "$list") continue ;; esac
        cut -f3 "$here/FILES" | grep -Fqx "$path" || printf '%s\t%s\n' "$kind" "$path"
      done < "$top/$list"
    fi
  } | LC_ALL=C sort -u > "$new"
  mkdir -p "$top/${list%/*}"
  cp "$new" "$top/$list.new" && chmod 644 "$top/$list.new" && mv -f "$top/$list.new" "$top/$list"
  rm -f "$new"
}

# What was there is the whole old file until it is the whole new one.
put() { # SOURCE TARGET
  mkdir -p "$top/${2%/*}"
  new=$top/${2%/*}/.boxglue-new-$$
  cp -P "$here/$1" "$new"
  if [ -x "$here/$1" ]; then mode=755; else mode=644; fi
  [ -L "$new" ] || chmod "$mode" "$new"
  mv -f "$new" "$top/$2"
}

# Wheels of other versions were in place before.
remove_old_wheels() {
  for wheel in "$top"/share/boxglue/python/boxglue-*.whl; do
    path=share/boxglue/python/${wheel##*/}
    cut -f3 "$here/FILES" | grep -Fqx "$path" || rm -f "$wheel"
  done
}

if [ "$mode" = uninstall ]; then
  remove_all
  exit
fi
check_sums
keep_proved
write_list
while IFS=$tab read -r kind source target; do
  put "$source" "$target"
done < "$here/FILES"
remove_old_wheels
wheel=$(cut -f3 "$here/FILES" | grep '\.whl$')
echo "boxglue is in place below $top"
echo "to begin: $prefix/share/doc/boxglue/docs/QUICKSTART.md"
echo "for C: PKG_CONFIG_PATH='$prefix/lib/pkgconfig' pkg-config --cflags --libs boxglue"
echo "for CMake: find_package(boxglue), with -DCMAKE_PREFIX_PATH='$prefix'"
echo "for Python: pip install '$prefix/$wheel'"
echo "for Rust, in Cargo.toml: boxglue = { path = \"$prefix/share/boxglue/rust/boxglue\" }"
case :${PATH:-}: in
  *":$prefix/bin:"*) ;;
  *) echo "$prefix/bin is not on the path of this shell: export PATH='$prefix/bin':\$PATH" ;;
esac
