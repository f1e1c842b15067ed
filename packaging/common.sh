# shellcheck shell=bash disable=SC2034
# Read by the scripts of this folder. It moves to the top of the tree, and defines what they need.
cd "$(dirname "${BASH_SOURCE[0]}")/.." || exit
version=$(cat VERSION)
# The one place of the interface's number is the header. The name of the shared library has it.
interface=$(sed -n 's/^#define CITYSEQ_INTERFACE \([0-9][0-9]*\).*/\1/p' c/cityseq.h)
shared=libcityseq.so.$interface

# Ends the script with one line that says what to do.
stop() {
  echo "${0##*/}: $*" >&2
  exit 1
}

# Stops unless a command is there: need COMMAND PACKAGE, where PACKAGE is the Debian package that
# has it.
need() {
  command -v "$1" > /dev/null || stop "$1 is missing: install it, on Debian by 'apt-get install $2'"
}

# Stops unless the command of Rattle's toolchain is there.
need_rt() {
  command -v rt > /dev/null || stop "rt is missing: it comes with Rattle's toolchain"
}

# Stops unless the files are there, which 'make build' makes.
need_built() {
  local file
  for file; do
    [ -f "$file" ] || stop "$file is missing: run 'make build' first, which needs Rattle's kit"
  done
}

# Stops unless the library is named as the header's interface says.
need_library() {
  need_built c/out/libcityseq.so c/out/libcityseq.a
  need objdump binutils
  objdump -p c/out/libcityseq.so | grep -q "SONAME *$shared\$" ||
    stop "c/out/libcityseq.so is not $shared, which c/cityseq.h declares: run 'make build' again"
}

# A line of the last commit: its time, or its author. A source tarball has them in a file, which
# 'git archive' fills in.
commit_line() {
  if [ -e .git ]; then
    git log -1 --format='%ct%n%an <%ae>'
  else
    cat packaging/commit
  fi | sed -n "$1p"
}

# All times in packages are that of the last commit, so that two builds of it are the same bytes.
set_epoch() {
  SOURCE_DATE_EPOCH=${SOURCE_DATE_EPOCH:-$(commit_line 1)}
  [[ $SOURCE_DATE_EPOCH =~ ^[0-9]+$ ]] ||
    stop 'no commit is known: set SOURCE_DATE_EPOCH to a time in seconds'
  export SOURCE_DATE_EPOCH
}

export LC_ALL=C.UTF-8 TZ=UTC
umask 022

# A folder for what is made on the way, and that is removed at the end.
scratch=$(mktemp -d) || exit
trap 'rm -rf "$scratch"' EXIT

# Gives all files below a folder the time of the last commit, and modes that no umask has a part in.
settle() {
  find "$1" -type d -exec chmod 755 {} +
  find "$1" -type f -perm -u+x -exec chmod 755 {} +
  find "$1" -type f ! -perm -u+x -exec chmod 644 {} +
  find "$1" -exec touch -h -d "@$SOURCE_DATE_EPOCH" {} +
}

# Writes a tarball whose bytes hang on its files alone: pack FOLDER NAME TARBALL packs FOLDER/NAME.
pack() {
  tar -C "$1" --sort=name --owner=0 --group=0 --numeric-owner --format=gnu \
    --mtime="@$SOURCE_DATE_EPOCH" -cf - "$2" | gzip -9n > "$3"
}
