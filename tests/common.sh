# What the tests share: where things are, the second program, and the commands of the line protocol. Sourced by the tests, from any folder.
set -u
root=$(cd "$(dirname "${BASH_SOURCE[0]}")/.." && pwd)
second=$root/second/target/release/second
heidezirkel=$root/bin/heidezirkel
scratch=$(mktemp -d)
trap 'rm -rf "$scratch"' EXIT

# The second program, built if its sources are newer.
build_second() {
  (cd "$root/second" && cargo build --release --offline --quiet)
}

# The command words of the line protocol, which both programs have.
words="read write step settings judge record gread gwrite gstep grecord mend"

# The fixed sets of vectors: one for each word, and the logs of group calls.
sets="$words judge16"

# same_answers COMMANDS EXPECTED FOUND: compares line by line; tells the first commands whose answers differ.
same_answers() {
  if cmp -s "$2" "$3"; then
    return 0
  fi
  echo "answers differ; the first (command, expected, found):"
  paste -d '\n' "$1" "$2" "$3" | awk 'NR % 3 == 1 { c = $0 } NR % 3 == 2 { e = $0 } NR % 3 == 0 && e != $0 && n < 5 { n++; print substr(c, 1, 300); print "  " substr(e, 1, 300); print "  " substr($0, 1, 300) }'
  echo "lines: $(wc -l <"$1") commands, $(wc -l <"$2") expected, $(wc -l <"$3") found"
  return 1
}
