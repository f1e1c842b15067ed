#!/usr/bin/env bash
# Proves and builds the program and the library, and writes the terms of the crates in them. The
# first time takes some 25 minutes of processor time; later only what changed is proved again.
set -eu
. "$(dirname "$0")/common.sh"
need_rt
(cd crates/cityseq && rt run -- --version)
c/build.sh
packaging/notices.sh
