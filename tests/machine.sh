# shellcheck shell=bash disable=SC2034
# Sourced by what builds or runs x86-64 code: tests/part.sh for the tests, bench/run, and the scripts of examples/. Sets
#   kit   the Rattle kit's folder
#   cc    the C compiler for x86-64, which is what libspadeswirl.a is for
#   run   what runs such a program here: nothing on x86-64, for which alone the kit has a toolchain
# and gives `need COMMAND PACKAGE`, which installs a Debian package where a command is missing.

need() {
    command -v "$1" >/dev/null 2>&1 && return 0
    echo "$1 is missing: installing $2"
    install_package "$2"
    command -v "$1" >/dev/null 2>&1 || { echo "$1 is missing, and installing $2 did not bring it"; return 1; }
}

# Installs a package, as root or by sudo; the list of packages is fetched once.
install_package() {
    as=; [ "$(id -u)" = 0 ] || as=sudo
    [ -n "${packages_listed:-}" ] || { $as apt-get update -q >/dev/null; packages_listed=1; }
    DEBIAN_FRONTEND=noninteractive $as apt-get install -q -y --no-install-recommends "$1" >/dev/null
}

command -v rt >/dev/null 2>&1 || { echo "rt, the Rattle kit's command, is not on the PATH"; return 1; }
kit=$(dirname "$(rt doc)")

# The second program is built for this machine, whichever it is.
need gcc gcc || return 1
[ -e /usr/include/stdio.h ] || install_package libc6-dev || return 1

case $(uname -m) in
x86_64)
    cc="gcc -static" run=
    ;;
*)
    echo "the kit has no toolchain for $(uname -m)"
    return 1
    ;;
esac
