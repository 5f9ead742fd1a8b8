# Sourced by the scripts that link the static library: goes to the repository's root, makes the scratch folder `room`, and sets `archive` to the
# one that ARCHIVE names (a relative path starts where the caller stands), or builds it.
archive=${ARCHIVE:-}
case $archive in '' | /*) ;; *) archive=$PWD/$archive ;; esac
cd "$(dirname "$0")/.."
room=$(mktemp -d)
trap 'rm -rf "$room"' EXIT
if [ -z "$archive" ]; then
    command -v rt >/dev/null || { echo "rt, the command of the Rattle toolchain, is not on the path; ARCHIVE names a library that is built already"; exit 1; }
    scripts/staticlib.sh >"$room/log" 2>&1 || { cat "$room/log"; exit 1; }
    archive=target/staticlib/libsaigagalena.a
fi
[ -f "$archive" ] || { echo "$archive is not there; scripts/staticlib.sh writes target/staticlib/libsaigagalena.a"; exit 1; }
