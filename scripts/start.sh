# For every script: `--help` prints what stands at its head, and without the kit it says so.
if [ "${1:-}" = --help ]; then
    sed -n '2,/^[^#]/s/^# \{0,1\}//p' "$0"
    exit
fi
if ! command -v rt > /dev/null; then
    echo 'rt is missing: this needs the kit that README.md names, with its rt on the PATH' >&2
    exit 2
fi
