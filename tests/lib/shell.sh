# What the scripts in sh share: a folder of their own, checks, and packages. A script that sources this stands at the top.
set -u
cd "$(dirname "$0")/../.." || exit 1
scratch=$(mktemp -d) || exit 1
trap 'rm -rf "$scratch"' EXIT
passed=0
failed=0

# need COMMAND:PACKAGE..: installs the packages of those commands that aren't there; one may be "COMMAND:PACKAGE PACKAGE".
need() {
    lacking=""
    for pair; do
        command -v "${pair%%:*}" >/dev/null || lacking="$lacking ${pair##*:}"
    done
    # shellcheck disable=SC2086
    [ -z "$lacking" ] || install_packages $lacking
}

install_packages() {
    # (a machine that was never asked for a package has no list of them)
    apt-get update -qq >&2 || exit 1
    DEBIAN_FRONTEND=noninteractive apt-get install -y --no-install-recommends -o DPkg::Lock::Timeout=120 "$@" >&2 || exit 1
}

# holds NAME COMMAND..: the command has to succeed; what it says is shown where it doesn't.
holds() {
    name=$1
    shift
    if "$@" >"$scratch/said" 2>&1; then
        passed=$((passed + 1))
    else
        printf 'FAILED %s:\n' "$name"
        cat "$scratch/said"
        failed=$((failed + 1))
    fi
}

# none NAME TEXT: the text has to be empty.
none() {
    holds "$1" is_empty "$2"
}

is_empty() {
    printf '%s\n' "$1"
    [ -z "$1" ]
}

# finish: the last line, and the script's status.
finish() {
    echo "$passed passed, $failed failed"
    [ $failed -eq 0 ]
    exit
}
