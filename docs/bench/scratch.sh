# What the benchmarks begin with that write a repository of their own: sourced by them as `. "$(dirname "$0")/scratch.sh"`.
#
#     begin NAME [FOLDER] 'LIBRARY ..' ['DEPENDENCY ..']
#
# makes a scratch repository in FOLDER (a new one under /tmp if it is empty) with these libraries of this checkout and a crate NAME above
# them, which depends on DEPENDENCY .. (on all of them if none is named). Afterwards $scratch is the repository and $bench the crate's
# folder.
#
#     below LIBRARY ..
#
# tells these libraries of this checkout and all that they stand on.
set -eu
top=$(cd "$(dirname "$0")/../.." && pwd)

below() {
    awk -v named="$*" '
        /^[a-z]/ { name = $0; sub(/[ :].*/, "", name); sub(/^[^:]*:/, ""); lower[name] = $0 }
        END {
            count = split(named, queue, " ")
            for (i = 1; i <= count; i++) {
                if (!(queue[i] in lower) || told[queue[i]]++) continue
                print queue[i]
                more = split(lower[queue[i]], names, " ")
                for (j = 1; j <= more; j++) queue[++count] = names[j]
            }
        }' "$top/crates.txt"
}

begin() {
    scratch=${2:-$(mktemp -d "/tmp/$1.XXXXXX")}
    bench=$scratch/crates/$1
    mkdir -p "$bench/src"
    cp "$top/HANDLES" "$scratch/HANDLES"
    for crate in $3; do
        cp -r "$top/crates/$crate" "$scratch/crates/"
        grep "^$crate:" "$top/crates.txt"
    done >"$scratch/crates.txt"
    echo "$1: ${4:-$3}" >>"$scratch/crates.txt"
}
