#!/usr/bin/env bash
# Makes all packages, installs them in a clean Debian, uses them as a user would, removes them, and
# looks whether anything is left. The clean systems are made by debootstrap, below a folder of /tmp,
# and it takes some minutes and a network.
#
#     tests/packages/try_packages.sh [SUITE]      (bookworm if left out)
#
# Where this user may not make one, it says so and tries nothing. MIRROR names another mirror of
# Debian. The last line is 'N passed, M failed', and the status is 0 where none failed.
set -u
suite=${1:-bookworm}
. "$(dirname "$0")/../../packaging/common.sh"
passed=0 failed=0

# Ends the script where no clean system can be made.
skip() {
  echo "left out: the packages in a clean system, $*"
  echo "$passed passed, $failed failed"
  exit $((failed > 0))
}

[ "$(id -u)" = 0 ] || skip 'which only root can make'
command -v debootstrap > /dev/null || skip 'for want of debootstrap'

# Counts a command as passed if its status is 0, and shows what it printed else.
test_case() {
  local name=$1
  shift
  if "$@" > "$scratch/printed" 2>&1; then
    passed=$((passed + 1))
  else
    failed=$((failed + 1))
    echo "$name: failed"
    tail -n 20 "$scratch/printed"
  fi
}

# Runs a script in a clean system: inside SYSTEM SCRIPT. It starts in /try, stops at the first
# command that fails, and has a network only if ONLINE is set. `fails COMMAND` is for one that must
# fail.
inside() {
  local apart=(unshare --mount --net)
  [ -z "${ONLINE:-}" ] || apart=(unshare --mount)
  # /proc is seen in there until the script ends
  "${apart[@]}" bash -c 'mount --rbind /proc "$1/proc" && exec chroot "$@"' chroot "$scratch/$1" \
    /usr/bin/env -i PATH=/usr/sbin:/usr/bin:/sbin:/bin HOME=/root LC_ALL=C.UTF-8 \
    DEBIAN_FRONTEND=noninteractive version="$version" interface="$interface" shared="$shared" \
    bash -euo pipefail -c "
      fails() { if \"\$@\"; then return 1; fi; }
      cd /try; $2"
}

# All files of a clean system, but those of apt and dpkg, caches and logs.
files_of() {
  inside "$1" 'find / -xdev \( -path /proc -o -path /sys -o -path /dev -o -path /tmp -o -path /try \
    -o -path /root -o -path /var/cache -o -path /var/log -o -path /var/lib/apt \
    -o -path /var/lib/dpkg \) -prune -o -print | sort'
}

nothing_is_left() {
  files_of "$1" | diff "$scratch/$1.before" - &&
    inside "$1" '! ls /var/lib/dpkg/info/*cityseq* 2> /dev/null'
}

# A clean system with what must be tried in /try: make_system NAME FILE..
make_system() {
  local name=$1
  shift
  cp -a "$scratch/base" "$scratch/$name" && mkdir "$scratch/$name/try" &&
    cp "$@" examples/*.city.jsonl c/example.c tests/packages/try_packages/* "$scratch/$name/try/"
}

# What a user does first with the program, the sample copied being the sample again.
main_job='
  cityseq --version | grep -qx "cityseq $version"
  cityseq check < town.city.jsonl | grep -qx "valid lines=5 features=4"
  fails cityseq check < broken.city.jsonl 2> said
  grep -qx "line 3, byte 144: 25 vertex index out of range" said
  cityseq filter < sample.city.jsonl | cmp - sample.city.jsonl
  cityseq info < sample.city.jsonl | grep -qx "type Building 120"'

# What a user does first with the package.
package_job='
  cityseq-run --version | grep -qE "^cityseq(-run)? $version\$"
  cityseq-run check --jobs 2 town.city.jsonl sample.city.jsonl > said
  grep -qx "sample.city.jsonl: valid lines=121 features=120" said
  gzip -c town.city.jsonl > town.city.jsonl.gz
  cityseq-run filter --type Road --output road.city.jsonl.gz town.city.jsonl.gz
  zcat road.city.jsonl.gz | tail -n 1 | grep -q "\"id\":\"road-1\""
  python3 check.py . | grep -qx "$version"'

# Programs in C and C++ by pkg-config.
by_pkg_config='
  pkg-config --modversion cityseq | grep -qx "$version"
  cc example.c -o loader $(pkg-config --cflags --libs cityseq)
  c++ -std=c++11 check.cpp -o check $(pkg-config --cflags --libs cityseq)
  objdump -p loader | grep -q "NEEDED *$shared"
  for header in $(pkg-config --variable=includedir cityseq)/cityseq.h*; do
    echo "#include \"$header\"" |
      c++ -std=c++17 -Wall -Wextra -Wpedantic -Werror -fsyntax-only -x c++ -
  done
  ./loader town.city.jsonl | grep -qx "valid lines=5 features=4"
  ./check < town.city.jsonl | grep -qx "$version lines=5 line=0"
  fails ./check < broken.city.jsonl'

# The same by CMake, with the static library too, which needs the C library alone.
by_cmake='
  rm -rf made && mkdir made && cd made
  cmake -DASKED="${version%.*}" .. > said && cmake --build . >> said
  for loader in loader loader_static; do
    fails ./$loader ../broken.city.jsonl > said
    grep -qx "line 3, byte 144: 25 vertex index out of range" said
  done
  ./check < ../town.city.jsonl | grep -qx "$version lines=5 line=0"
  [ "$(objdump -p loader_static | awk "\$1 == \"NEEDED\" { print \$2 }")" = libc.so.6 ]
  cd .. && rm -rf made && mkdir made && cd made && fails cmake -DASKED=9.9 .. > said 2>&1'

# Whether the shells find the completions of a command where the package puts them.
completions_of() {
  echo "bash -c '. /usr/share/bash-completion/bash_completion; _completion_loader $1
      complete -p $1' | grep -qw _$2
    zsh -fc 'autoload -U compinit; compinit -u -D; print \${_comps[$1]}' | grep -qx _$1
    fish -c 'complete -C \"$1 che\"' | grep -q ^check"
}

make_all() {
  packaging/deb.sh "$scratch/made" && packaging/wheel.sh "$scratch/made" &&
    packaging/dist.sh "$scratch/made"
}

# Whether README names the newest version of glibc that the program or the library takes a symbol
# of.
readme_names_glibc() {
  local newest
  newest=$(objdump -T crates/cityseq/out/cityseq c/out/libcityseq.so |
    sed -n 's/.*GLIBC_\(2\.[0-9]*\).*/\1/p' | sort -V | tail -n 1)
  grep -F "glibc $newest" README.md
}

# Whether the source distribution stops without a library, and takes the one that is named.
sources_need_a_library() {
  local library=$PWD/c/out/libcityseq.so
  tar -C "$scratch" -xzf "$scratch/made/cityseq-$version.tar.gz" || return
  (
    cd "$scratch/cityseq-$version" || exit
    ! env -u CITYSEQ_LIBRARY /usr/bin/python3 setup.py -q build > "$scratch/said" 2>&1 &&
      grep -q 'set CITYSEQ_LIBRARY' "$scratch/said" &&
      CITYSEQ_LIBRARY=$library /usr/bin/python3 setup.py -q build &&
      cmp "$library" build/lib*/cityseq/libcityseq.so
  )
}

make_base() {
  local base=$scratch/base
  debootstrap --variant=minbase "$suite" "$base" "${MIRROR:-http://deb.debian.org/debian}" &&
    cp /etc/resolv.conf "$base/etc/resolv.conf" && mkdir "$base/try" &&
    ONLINE=1 inside base 'apt-get update && apt-get install -y --no-install-recommends gcc g++ \
      libc6-dev pkg-config cmake make python3 python3-venv man-db bash-completion zsh fish' &&
    rmdir "$base/try"
}

test_case 'all packages are made' make_all
[ $failed = 0 ] || { echo "$passed passed, $failed failed"; exit 1; }
made=$scratch/made
if command -v lintian > /dev/null; then
  test_case 'lintian finds no errors and no warnings' \
    lintian --allow-root --fail-on error,warning "$made"/*.changes
else
  echo 'left out: lintian, which is not here'
fi
test_case 'README names the oldest glibc' readme_names_glibc
test_case 'the sources of the Python package say what they need' sources_need_a_library
make_base > "$scratch/said" 2>&1 || skip "as debootstrap failed: $(tail -n 1 "$scratch/said")"

# ---- Debian packages
make_system debian "$made"/*.deb || exit
files_of debian > "$scratch/debian.before"
install='apt-get install -y --no-install-recommends'
test_case 'the program is installed' inside debian "$install ./cityseq_*.deb"
test_case 'the program does the main job' inside debian "$main_job"
test_case 'its manual page is there' inside debian 'man -P cat cityseq | grep -q "valid lines=N"'
test_case 'its completions are found' inside debian "$(completions_of cityseq cityseq)"
test_case 'the library is installed' inside debian "$install ./libcityseq*.deb"
test_case 'programs are built by pkg-config' inside debian "$by_pkg_config"
test_case 'programs are built by CMake' inside debian "$by_cmake"
test_case 'the Python package is installed' inside debian "$install ./python3-cityseq_*.deb"
test_case 'the Python package does the main job' inside debian "$package_job"
test_case 'its completions are found' inside debian "$(completions_of cityseq-run cityseq_run)"
test_case 'all are removed' inside debian 'apt-get purge -y "*cityseq*"'
test_case 'nothing is left of them' nothing_is_left debian

# ---- the wheel
make_system wheel "$made"/*.whl || exit
venv=/root/venv
test_case 'a clean venv' inside wheel "python3 -m venv $venv; find $venv | sort > before"
test_case 'the wheel is installed without a network' \
  inside wheel "$venv/bin/pip install --no-index ./*.whl"
test_case 'it does the main job' inside wheel "PATH=$venv/bin:\$PATH; $package_job"
test_case 'it is removed' inside wheel "$venv/bin/pip uninstall -y cityseq"
test_case 'nothing is left of it' \
  inside wheel "find $venv | grep -v __pycache__ | sort | diff <(grep -v __pycache__ before) -"

# ---- the binary tarball, in a system without any of the packages
make_system tarball "$made"/cityseq-*-linux-x86_64.tar.gz "$made/SHA256SUMS" || exit
root=/root/cityseq-$version-linux-x86_64
test_case 'the tarball has its sum' inside tarball 'sha256sum --check --ignore-missing SHA256SUMS'
test_case 'it is unpacked' inside tarball 'tar -C /root -xzf cityseq-*-linux-x86_64.tar.gz'
test_case 'its program does the main job' inside tarball "PATH=$root/bin:\$PATH; $main_job"
test_case 'programs are built by its pkg-config' inside tarball "
  export PKG_CONFIG_PATH=$root/lib/pkgconfig LD_LIBRARY_PATH=$root/lib; $by_pkg_config"
test_case 'programs are built by its CMake' \
  inside tarball "export CMAKE_PREFIX_PATH=$root; $by_cmake"
test_case 'its static library needs libc alone' inside tarball "
  cc example.c -I$root/include $root/lib/libcityseq.a -o loader
  ./loader town.city.jsonl | grep -qx 'valid lines=5 features=4'"
echo "$passed passed, $failed failed"
[ "$failed" = 0 ]
