# The toolchain behind the command `rt`, for a script to read in: where it stands, and where its compiler is.
# shellcheck shell=sh disable=SC2034
command -v rt >/dev/null || { printf '%s: the command rt, of the Rattle toolchain, is not on the PATH\n' "$0" >&2; exit 2; }
guide=$(rt doc) || exit 2
kit=$(dirname "$guide")
tools=$kit/toolchain
machine=$(uname -m)
