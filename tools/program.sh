# Sourced by the starters of the programs at the top of the repository, after `top` is set.
# `start NAME` runs the program NAME, and first proves and builds it where it is missing or older than its sources. That takes minutes from nothing: a line a
# crate tells on standard error how far it is, so that the answer on standard output stays clean. Status 2: it could not be built.

# where `rt run` leaves the program NAME
program_of() {
    printf '%s\n' "$top/crates/$1/out/$1"
}

# the crates that NAME stands on, itself among them
crates_of() {
    awk -F: -v name="$1" '
        /^[a-z]/ { deps[$1] = $2 }
        END {
            todo[1] = name; n = 1; seen[name] = 1
            for (i = 1; i <= n; i++) {
                k = split(deps[todo[i]], d, " ")
                for (j = 1; j <= k; j++) if (d[j] in deps && !(d[j] in seen)) { seen[d[j]] = 1; todo[++n] = d[j] }
            }
            print n
        }' "$top/crates.txt"
}

# `rt run` proves what has changed, from the lowest crate on, builds the program and runs it once, here on no input
build() {
    command -v rt >/dev/null || { echo "$1: no rt in PATH" >&2; return 2; }
    total=$(crates_of "$1") done=0 crate=$1
    mkdir -p "$top/target/log"
    log=$top/target/log/$1.build
    : >"$log"
    echo "$1: proving and building it from its $total crates; from nothing this takes some minutes, once" >&2
    { (cd "$top/crates/$1" && rt run </dev/null 2>&1 >/dev/null) && echo built || echo failed; } | while IFS= read -r line; do
        case $line in
        built) exit 0 ;;
        failed)
            cat "$log" >&2
            echo "$name: the program could not be built" >&2
            exit 2
            ;;
        'crate '*': modules '*) crate=${line#crate } crate=${crate%%:*} ;;
        logic=proved*)
            done=$((done + 1))
            echo "$name: $done of at most $total: $crate proved" >&2
            ;;
        esac
        printf '%s\n' "$line" >>"$log"
    done
}

start() {
    name=$1 program=$(program_of "$1")
    if [ ! -x "$program" ] || [ -n "$(find "$top/crates" "$top/crates.txt" -name out -prune -o -type f -newer "$program" -print | head -n 1)" ]; then
        build "$name" || exit 2
        touch "$program"
    fi
    "$program"
}
