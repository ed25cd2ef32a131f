# shellcheck shell=sh
# Sourced by tools that need something of Debian's packages. The caller has say, which tells a line.

registry=/usr/share/cargo/registry

# need_crates "CRATE ..." "PACKAGE ...": installs the packages where the registry lacks one of the crates; fails where it cannot.
need_crates() {
    missing_crates=
    for crate in $1; do
        if ! ls -d "$registry/$crate"-[0-9]* >/dev/null 2>&1; then
            missing_crates="$missing_crates $crate"
        fi
    done
    if [ -z "$missing_crates" ]; then
        return 0
    fi
    say "These crates are not in $registry:$missing_crates"
    install_packages "$2"
}

# need_command COMMAND PACKAGE: the same for a command that is not on the PATH.
need_command() {
    if command -v "$1" >/dev/null; then
        return 0
    fi
    say "The command $1 is not on the PATH."
    install_packages "$2"
}

# install_packages "PACKAGE ...": fails where there is no apt-get, or where it fails.
install_packages() {
    if ! command -v apt-get >/dev/null; then
        say "There is no apt-get to install Debian's packages: $1"
        return 1
    fi
    as_root=
    if [ "$(id -u)" -ne 0 ]; then
        as_root=sudo
    fi
    say "installing Debian's packages: $1"
    $as_root apt-get update -qq >&2 || return 1
    # shellcheck disable=SC2086
    $as_root env DEBIAN_FRONTEND=noninteractive apt-get install -y -qq -o Dpkg::Use-Pty=0 $1 >/dev/null
}
