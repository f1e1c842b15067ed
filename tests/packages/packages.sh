#!/usr/bin/env bash
# Installs the Debian packages that some tests need: for Python, for indexes, pages and servers,
# PostgreSQL, valgrind and a browser. Tests of packages need mandoc, pkg-config and two shells. It
# prints what it could not install, and its status is 0 in any case. A test without such a package is
# left out, and says so.
set -u
missing=()
for package in python3-distributed python3-zstandard python3-tqdm python3-mypy python3-flake8 black isort python3-lark python3-psycopg2 python3-geopandas python3-gdal \
  python3-jinja2 python3-matplotlib python3-jsonschema python3-aiohttp python3-pyproj python3-urllib3 python3-fsspec python3-owslib gdal-bin nginx-light \
  libnginx-mod-stream gunicorn \
  postgresql curl valgrind mandoc pkg-config zsh fish; do
  dpkg -s "$package" > /dev/null 2>&1 || missing+=("$package")
done
# The browser takes 330 MB. It is installed by itself, so that the others are there without it.
browser=(chromium)
command -v chromium > /dev/null && browser=()
[ $((${#missing[@]} + ${#browser[@]})) = 0 ] && exit 0
if [ "$(id -u)" != 0 ] || ! command -v apt-get > /dev/null; then
  echo "not installed, as this user may not: ${missing[*]} ${browser[*]}"
  exit 0
fi
export DEBIAN_FRONTEND=noninteractive

# Installs packages, or says that this failed.
install() {
  [ $# = 0 ] || timeout 480 apt-get install -y --no-install-recommends "$@" > /dev/null 2>&1 ||
    echo "not installed, as that failed: $*"
}

timeout 120 apt-get update > /dev/null 2>&1
install "${missing[@]}"
install "${browser[@]}"
