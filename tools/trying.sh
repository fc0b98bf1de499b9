# What the scripts share that try the built program. Each sources it as its first act, from any folder:
#
#   . "$(dirname "$0")/trying.sh" || exit 1
#
# It sets $here, the repository, and $program, which is $ABOOTIMG, or build/abootimg; and goes to $room, a new folder that is
# removed at the end, after what is mounted at $mounted. The script ends by `tried`.
set -u
here=$(cd "$(dirname "$0")/.." && pwd)
program=$(realpath "${ABOOTIMG:-$here/build/abootimg}")
room=$(mktemp -d)
mounted=
trap '[ -z "$mounted" ] || umount "$mounted"; rm -rf "$room"' EXIT
cd "$room"
passed=0
failed=0

# try NAME CONDITION..: counts one thing that was tried.
try() {
    local name=$1
    shift
    if "$@"; then
        passed=$((passed + 1))
        echo "ok      $name"
    else
        failed=$((failed + 1))
        echo "FAILED  $name"
        echo "        out: $(head -c 300 out 2>/dev/null | tr '\0' '.')"
        echo "        err: $(head -c 300 err 2>/dev/null)"
    fi
}

# run WORDS..: runs the program; its streams are in out and err, its status in $status.
run() {
    "$program" "$@" >out 2>err </dev/null
    status=$?
}

# said STATUS OUT ERR: the last run ended so.
said() {
    [ "$status" = "$1" ] && [ "$(cat out)" = "$2" ] && [ "$(cat err)" = "$3" ]
}

# script NAME COMMAND..: runs a script that ends in a line of counts. They are added, and lines of what went well left out.
script() {
    local name=$1 last
    shift
    "$@" >log 2>&1 </dev/null
    status=$?
    last=$(tail -n 1 log)
    if [[ $last =~ ([0-9]+)\ passed,\ ([0-9]+)\ failed$ ]] && [ $((BASH_REMATCH[2] > 0)) = $((status > 0)) ]; then
        passed=$((passed + BASH_REMATCH[1]))
        failed=$((failed + BASH_REMATCH[2]))
    else
        failed=$((failed + 1))
    fi
    grep -v '^ok ' log | head -n -1
    echo "$name: $last"
}

# lacks WHAT COMMAND..: whether one of these commands is not there; then it says that WHAT is not run.
lacks() {
    local what=$1 it
    shift
    for it in "$@"; do
        command -v "$it" >/dev/null || { echo "NOT RUN  $what: there is no $it"; return 0; }
    done
    return 1
}

# tried: prints the counts as the last line, and fails where something failed.
tried() {
    echo "$passed passed, $failed failed"
    [ $failed = 0 ]
}
