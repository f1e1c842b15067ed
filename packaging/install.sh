#!/usr/bin/env bash
# Installs the program and the library, or removes them.
#
#     packaging/install.sh install|uninstall [PART..]
#
# PART is 'program', 'library' (the shared library) or 'development' (headers, static library,
# pkg-config, CMake); all three if none is given. A fourth is 'command', what the Debian package has
# for cityseq-run, which elsewhere pip installs. PREFIX is where to install, /usr/local if it is not
# set, and DESTDIR is put before it. LIBDIR and ZSHDIR name other folders for libraries and for
# completions of zsh. RELOCATABLE=1 has pkg-config find the files by its own file.
set -eu
prefix=${PREFIX:-/usr/local} destination=${DESTDIR:-}
[ -z "$destination" ] || destination=$(realpath -m -- "$destination")
case $prefix in /*) ;; *) prefix=$PWD/$prefix ;; esac
. "$(dirname "$0")/common.sh"
library=${LIBDIR:-$prefix/lib}
cmake=$library/cmake/cityseq
zsh=${ZSHDIR:-$prefix/share/zsh/site-functions}
bash=$prefix/share/bash-completion/completions
fish=$prefix/share/fish/vendor_completions.d

# What is installed, a file a line: its mode, its source, and its target. The mode 'link' makes a
# symbolic link.
files_of() {
  local man=$prefix/share/man header
  case $1 in
    program)
      echo "755|crates/cityseq/out/cityseq|$prefix/bin/cityseq"
      echo "644|packaging/man/cityseq.1|$man/man1/cityseq.1"
      echo "644|packaging/completions/cityseq.bash|$bash/cityseq"
      echo "644|packaging/completions/_cityseq|$zsh/_cityseq"
      echo "644|packaging/completions/cityseq.fish|$fish/cityseq.fish"
      ;;
    command)
      echo "755|packaging/cityseq-run|$prefix/bin/cityseq-run"
      echo "644|packaging/man/cityseq-run.1|$man/man1/cityseq-run.1"
      echo "644|packaging/completions/cityseq-run.bash|$bash/cityseq-run"
      echo "644|packaging/completions/_cityseq-run|$zsh/_cityseq-run"
      echo "644|packaging/completions/cityseq-run.fish|$fish/cityseq-run.fish"
      ;;
    library)
      echo "644|c/out/libcityseq.so|$library/$shared"
      ;;
    development)
      for header in cityseq.h cityseq.hpp; do
        [ ! -f "c/$header" ] || echo "644|c/$header|$prefix/include/$header"
      done
      echo "644|c/out/libcityseq.a|$library/libcityseq.a"
      echo "link|$shared|$library/libcityseq.so"
      echo "644|$scratch/cityseq.pc|$library/pkgconfig/cityseq.pc"
      echo "644|$scratch/cityseqConfig.cmake|$cmake/cityseqConfig.cmake"
      echo "644|$scratch/cityseqConfigVersion.cmake|$cmake/cityseqConfigVersion.cmake"
      echo "644|packaging/man/libcityseq.3|$man/man3/libcityseq.3"
      ;;
    *) stop "there is no part '$1': it is program, library, development or command" ;;
  esac
}

# Fills in a template. CMake looks for all files from its own file on, and so does pkg-config where
# that is asked for.
fill_in() {
  local include root=${prefix// /\\\\ } libraries=${library// /\\\\ }
  if [ -n "${RELOCATABLE:-}" ]; then
    root="\${pcfiledir}/$(realpath -m --relative-to="$library/pkgconfig" "$prefix")"
    libraries="\${prefix}/$(realpath -m --relative-to="$prefix" "$library")"
  fi
  include=$(realpath -m --relative-to="$cmake" "$prefix/include")
  sed -e "s|@VERSION@|$version|g; s|@SHARED@|$shared|g; s|@PREFIX@|$root|g" \
    -e "s|@LIBDIR@|$libraries|g; s|@INCLUDE@|$include|g" "packaging/$1.in" > "$scratch/$1"
}

# Makes a folder, or says that this user may not.
make_folder() {
  mkdir -p -- "$1" 2> "$scratch/why" ||
    stop "cannot write to $1: run it as root, or set PREFIX to a folder of your own"
}

install_file() {
  local target=$destination$3
  make_folder "$(dirname -- "$target")"
  if [ "$1" = link ]; then
    ln -sf -- "$2" "$target" 2> "$scratch/why" && return
  else
    # a new file, since a process may run the one before
    install -m "$1" -- "$2" "$target" 2> "$scratch/why" && return
  fi
  stop "cannot write $target: run it as root, or set PREFIX to a folder of your own"
}

uninstall_file() {
  local target=$destination$1
  if [ -e "$target" ] || [ -L "$target" ]; then
    rm -f -- "$target" 2> "$scratch/why" ||
      stop "cannot remove $target: run it as the user who installed it"
  fi
}

command=${1:-}
shift || true
[ $# -gt 0 ] || set -- program library development
case $command in
  install)
    for part; do
      case $part in
        program) need_built crates/cityseq/out/cityseq ;;
        library | development) need_library ;;
        *) ;;
      esac
    done
    for name in cityseq.pc cityseqConfig.cmake cityseqConfigVersion.cmake; do fill_in "$name"; done
    for part; do files_of "$part"; done > "$scratch/files"
    while IFS='|' read -r mode source target; do
      install_file "$mode" "$source" "$target"
    done < "$scratch/files"
    ;;
  uninstall)
    for part; do files_of "$part"; done > "$scratch/files"
    while IFS='|' read -r mode source target; do
      uninstall_file "$target"
    done < "$scratch/files"
    rmdir -- "$destination$cmake" 2> "$scratch/why" || true
    ;;
  *) stop "say 'install' or 'uninstall'" ;;
esac
