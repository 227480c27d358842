# What the scripts share about things that the Rattle kit builds: where they lie, whether one is older than its sources, and what runs it. Sourced, with `here` set to the
# project's folder; POSIX sh.

# program_of CRATE: where the program of a crate lies once it is built.
program_of() {
    echo "$here/crates/$1/out/$1"
}

# The library for C.
archive_of() {
    echo "$here/crates/$1/out/lib$1.a"
}

# stale FILE: whether FILE, which was built here, is missing or older than a source of any crate: one look at all of them takes less time than finding out which ones it
# was built from, and rt proves again only what changed. The shell looks itself: `find` takes three times as long.
stale() {
    [ -e "$1" ] || return 0
    for source in "$here/crates.txt" "$here"/crates/*/src/*.rt "$here"/crates/*/src/*/*.rt "$here"/crates/*/specs/*.antt; do
        [ ! "$source" -nt "$1" ] || return 0
    done
    return 1
}

# find_emulator: sets `emulator`, which runs x86-64 programs on this machine, and `tools`, the kit's toolchain with the libraries for them. The kit is found by
# RATTLE_HOME or else by `rt`. False where there is none, with the reason in `why`.
find_emulator() {
    home=${RATTLE_HOME:-}
    if [ -z "$home" ]; then
        why="no rt on PATH, and RATTLE_HOME is not set"
        rt=$(command -v rt) || return 1
        home=$(cd "$(dirname "$(readlink -f "$rt")")/.." && pwd -P) || return 1
    fi
    why="no emulator for $(uname -m): the Rattle kit is for x86-64, and there is no qemu-x86_64 on PATH"
    tools=$home/toolchain
    emulator=$(command -v qemu-x86_64) || return 1
    for word in $(env | sed -n 's/^\(QEMU_[A-Za-z0-9_]*\)=.*/\1/p'); do unset "$word"; done
}

# prove_program CRATE: proves a program and what it stands on, several crates at once, and builds it. rt keeps what it proved, so that none of it is proved again.
# What rt says goes to a file, whose name is left in `log`; standard error has one line that moves on where it is a terminal, and else a line for each step.
prove_program() {
    mkdir -p "$here/target"
    log=$here/target/$1.log
    : >"$log"
    plan=$(plan_for "$1")
    most=$(at_once)
    began=$(date +%s) ended=0 job='' told=''
    trap 'kill "$job" 2>/dev/null; exit 2' HUP INT TERM
    run_rt "$1" all check --jobs "$most"
    # rt builds a program where it runs it: here with no word, so that its status is of no account.
    [ "$ended" -ne 0 ] || run_rt "$1" run
    trap - HUP INT TERM
    [ ! -t 2 ] || echo >&2
    grep -q "^rt: running out/$1;" "$log"
}

# at_once: how many crates are proved at once: RT_JOBS, or else one for each processor, as far as there is memory, of which one takes up to 2.5 GB.
at_once() {
    if [ -n "${RT_JOBS:-}" ]; then
        echo "$RT_JOBS"
        return
    fi
    jobs=$(nproc 2>/dev/null || echo 1)
    room=$(awk '/^MemAvailable:/ { print int($2 / 2500000) }' /proc/meminfo 2>/dev/null)
    [ "${room:-$jobs}" -ge "$jobs" ] || jobs=$room
    [ "$jobs" -ge 1 ] || jobs=1
    echo "$jobs"
}

# run_rt CRATE WORD..: rt in the crate's folder, with its output at the end of the log and its status in `ended`.
run_rt() {
    folder=$here/crates/$1
    shift
    (cd "$folder" && exec rt "$@" </dev/null) >>"$log" 2>&1 &
    job=$!
    while kill -0 "$job" 2>/dev/null; do
        tell_progress
        sleep 0.3
    done
    wait "$job"
    ended=$?
    tell_progress
}

# plan_for CRATE: a line for the crate and for each that it stands on, with what that stands on here, in the order in which rt takes them: by how many stand below.
plan_for() {
    awk -v asked="$1" -F'[: ]+' '
        !/^#/ && NF { for (i = 2; i <= NF; i++) deps[$1] = deps[$1] " " $i; known[$1] = 1 }
        function walk(name, list, n, i) {
            if (!(name in known) || (name in seen)) return
            seen[name] = 1
            n = split(deps[name], list, " ")
            for (i = 1; i <= n; i++) walk(list[i])
            order[++total] = name
        }
        function below(name, list, n, i) {
            n = split(deps[name], list, " ")
            for (i = 1; i <= n; i++) if ((list[i] in known) && !(list[i] in counted)) {
                counted[list[i]] = 1
                count++
                below(list[i])
            }
        }
        END {
            walk(asked)
            for (at = 1; at <= total; at++) {
                split("", counted)
                count = 0
                below(order[at])
                line = count " " at " " order[at]
                n = split(deps[order[at]], list, " ")
                for (i = 1; i <= n; i++) if (list[i] in known) line = line " " list[i]
                print line
            }
        }' "$here/crates.txt" | sort -k 1,1n -k 2,2n | cut -d' ' -f3-
}

# progress: by what the log has so far, how many crates are proved, of how many, and which are on: rt has `most` of the plan in hand, of which those wait that stand on others.
# It tells of a crate when that has ended.
progress() {
    echo "$plan" | awk -v most="$most" '
        FNR == NR { name[++n] = $1; for (i = 2; i <= NF; i++) under[$1] = under[$1] " " $i; next }
        /^== / { crate = $2; ended[crate] = 1; next }
        /^logic=not-proved|: error|error\[/ { bad[crate] = 1 }
        END {
            for (i = 1; i <= n; i++) {
                if (name[i] in ended) { if (!(name[i] in bad)) proved++; continue }
                if (++held > most) continue
                waits = 0
                parts = split(under[name[i]], list, " ")
                for (j = 1; j <= parts; j++) if (!(list[j] in ended)) waits = 1
                if (!waits) on = on " " name[i]
            }
            print proved + 0 " of " n " crates proved" (on ? ", now" on : "")
        }' - "$log"
}

# tell_progress: how far it is, and since when.
tell_progress() {
    line=$(progress)
    since=$(($(date +%s) - began))
    if [ -t 2 ]; then
        # 76 characters and then clear to the end of the line: it must not break
        printf '\r%.76s\033[K' "heidezirkel: $((since / 60)):$(printf %02d $((since % 60))), $line" >&2
    elif [ "$line" != "$told" ]; then
        echo "heidezirkel: $line ($since s)" >&2
        told=$line
    fi
}
