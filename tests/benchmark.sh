#!/usr/bin/env bash
# Times of the program; it asserts nothing.
#
# 1. How long the tokens of a unit take: nanoseconds a byte at 64 KiB and at 1 MiB, and their ratio, which is near
#    1 where the time grows with the length alone. The program is run on units of ordinary C that end in N1 at their
#    first declaration, so the time is that of the file and its tokens; that of an empty unit is taken off.
# 2. `transpile` against `gcc -fsyntax-only` on straight units of 16 KiB, 128 KiB and 1 MiB with 20 and with 2,000
#    objects: the ratio of the two times, each with its start.
# 3. How long the tokens and the syntax tree of a unit take, by the rows: nanoseconds a byte at 64 KiB and at 1 MiB of ordinary C,
#    and of a unit of 70,000 names; the time of a row of one declaration is taken off. And the ratio to `gcc -fsyntax-only` on
#    the same units, each with its start.
# 4. How long the shape of a control flow graph of 5,000 nodes takes, by the rows, in milliseconds: of a switch in a loop,
#    and of a chain whose nodes are numbered forwards and backwards; the start is in the time.
# 5. How long the calls of a store take, by the rows: nanoseconds a call of a million `kill`, `alloc`, `put` and `load` over 1,000 live
#    blocks, of a list store and of one in a region; and of `put` and `load` alone, and of `kill` and `alloc` alone, over 100, 1,000 and
#    10,000 live blocks; the time of a row without rounds is taken off. And the memory, in MB, that a full region of 1 MiB and one of
#    64 MiB take.
# 6. How long a crate of one module of 64 KiB, 256 KiB and 1 MiB of statements takes to be read and printed, by the rows: nanoseconds
#    a byte; the time of a row without statements is taken off.
# 7. How many units a second a run of a crate takes, by the rows: of a loop of 5,000,000 turns with one comparison and one addition
#    each, over a list store; the time of a row of one turn is taken off.
# 8. How long `run-c` takes and how much memory, with its start: of a loop of 10,000,000 steps, of a loop with a sum of 65 locals for as many, and of a
#    list of 500,000 nodes that is made, added up and freed.
# 9. `transpile` against `gcc -fsyntax-only` on large units, each with its start: 70,000 objects, 20,000 members, 400 levels of blocks, an array of 40,000
#    values whose last one goes back to the first element, and 64 units of 1 MiB; and the same of a quarter of each. The units of 1 MiB are timed once
#    more with jemalloc in place of the C library's allocator, where it is there.
set -u
top=$(cd "$(dirname "$0")/.." && pwd)
work=$(mktemp -d) || exit 1
trap 'rm -rf "$work"' EXIT
program="$top/crates/c2rs/out/c2rs"
(cd "$top/crates/c2rs" && rt run -- >"$work/build.log" 2>&1)
[ -x "$program" ] || { echo "the program wasn't built"; exit 1; }

cat >"$work/part.c" <<'C'
/* a list */
struct node { struct node *next; unsigned long key; char name[16]; };
static int insert(struct node **list, unsigned long key, const char *name)
{
    struct node *n = malloc(sizeof(struct node)); // one more
    if (n == 0 || key >= 0x7fffffffUL) return -1;
    n->key = (key << 3) ^ 'x'; n->next = *list; *list = n;
    for (int i = 0; i < 16; i++) n->name[i] = "a\tb\101\n"[i % 5];
    return n->key >>= 2, 0;
}
C

# unit SIZE: a unit of this many bytes, whose end is blanks.
unit() {
  : >"$work/unit_$1.c"
  local part left=$1
  part=$(wc -c <"$work/part.c")
  while [ "$left" -ge "$part" ]; do
    cat "$work/part.c"
    left=$((left - part))
  done >"$work/unit_$1.c"
  printf '%*s' "$left" '' >>"$work/unit_$1.c"
}

# least SIZE RUNS: the least time of a run on the unit, in nanoseconds.
least() {
  local best=0 begin took
  for _ in $(seq "$2"); do
    begin=$(date +%s%N)
    (cd "$work" && "$program" transpile -o out "unit_$1.c" >/dev/null 2>&1)
    took=$(($(date +%s%N) - begin))
    if [ "$best" -eq 0 ] || [ "$took" -lt "$best" ]; then best=$took; fi
  done
  echo "$best"
}

for size in 0 65536 1048576; do unit "$size"; done
report=$(cd "$work" && "$program" transpile -o out unit_1048576.c 2>&1)
[ "$report" = "unit_1048576.c:1: N1: not built" ] || { echo "the unit isn't read: $report"; exit 1; }
none=$(least 0 20)
small=$(least 65536 20)
large=$(least 1048576 10)
awk -v none="$none" -v small="$small" -v large="$large" 'BEGIN {
  a = (small - none) / 65536; b = (large - none) / 1048576
  printf "64 KiB: %.1f ns a byte; 1 MiB: %.1f ns a byte; ratio %.2f\n", a, b, b / a
}'

command -v gcc >/dev/null 2>&1 || { echo "skipped: transpile against gcc (gcc isn't there)"; exit 0; }

# straight_unit SIZE OBJECTS: a straight unit of about this many bytes: so many objects of two letters (no u8), and
# statements that use them in turn.
straight_unit() {
  awk -v size="$1" -v objects="$2" 'BEGIN {
    first = "ABCDEFGHIJKLMNOPQRSTUVWXYZbceghjklmnopqrstvwxyz"
    second = "ABCDEFGHIJKLMNOPQRSTUVWXYZ0123456789_"
    for (i = 0; i < objects; i++) {
      name[i] = substr(first, i % length(first) + 1, 1) substr(second, int(i / length(first)) % length(second) + 1, 1)
      if (i >= length(first) * length(second)) name[i] = name[i] i
      written += length(name[i]) + 6
      printf "int %s;\n", name[i]
    }
    print "int main(void) {"
    for (i = 0; written + 60 < size; i++) {
      line = name[i % objects] "=" name[(i * 7 + 3) % objects] "+" i % 100 ";"
      written += length(line) + 1
      print line
    }
    print "return 0; }"
  }'
}

# least_of RUNS COMMAND..: the least time of a run of a command, in nanoseconds.
least_of() {
  local runs=$1 best=0 begin took
  shift
  for _ in $(seq "$runs"); do
    begin=$(date +%s%N)
    (cd "$work" && "$@" >/dev/null 2>&1)
    took=$(($(date +%s%N) - begin))
    if [ "$best" -eq 0 ] || [ "$took" -lt "$best" ]; then best=$took; fi
  done
  echo "$best"
}

for objects in 20 2000; do
  for size in 16384 131072 1048576; do
    unit="straight_${size}_$objects.c"
    straight_unit "$size" "$objects" >"$work/$unit"
    report=$(cd "$work" && "$program" transpile -o out "$unit" 2>&1) || { echo "not translated: $report"; exit 1; }
    ours=$(least_of 5 "$program" transpile -o out "$unit")
    theirs=$(least_of 5 gcc -std=c99 -fsyntax-only "$unit")
    awk -v size="$size" -v objects="$objects" -v ours="$ours" -v theirs="$theirs" 'BEGIN {
      printf "%4d KiB, %4d objects: transpile %.1f ms, gcc -fsyntax-only %.1f ms, ratio %.2f\n", size / 1024, objects, ours / 1e6, theirs / 1e6, ours / theirs
    }'
  done
done

# rows_of GROUP: the rows behind are of this group.
rows_of() {
  rows="$work/$1"
  printf '#!/bin/sh\nexec "%s/tests/rows_of" %s\n' "$top" "$1" >"$rows"
  chmod +x "$rows"
}

(cd "$top/crates/rows" && rt run -- >"$work/build.log" 2>&1 </dev/null)
[ -x "$top/crates/rows/out/rows" ] || { echo "the program rows wasn't built"; exit 1; }

rows_of texts

# c_unit SIZE: a unit of this many bytes of ordinary C, whose end is blanks.
c_unit() {
  awk -v size="$1" 'BEGIN {
    text = "typedef unsigned long size;\nvoid *malloc(size);\nstruct node { struct node *next; size key; char name[16]; };\n"
    for (i = 0; ; i++) {
      part = "/* a list */\nstatic int insert@(struct node **list, size key, const char *name)\n{\n" \
        "    struct node *n = (struct node *)malloc(sizeof(struct node));\n" \
        "    if (n == 0 || key >= 0x7fffffffUL) return -1; else n->next = *list;\n" \
        "    n->key = (key << 3) ^ (size)n; *list = n;\n" \
        "    for (int i = 0; i < 16; i++) { n->name[i] = name ? name[i] : \"a\\tb\"[i % 3]; }\n" \
        "    while (n && n->key != key) n = n->next;\n" \
        "    return n->key >>= 2, (int)sizeof *n + insert@(&n, key, 0);\n}\nint i@;\n"
      gsub("@", i, part)
      if (length(text) + length(part) > size) break
      text = text part
    }
    printf "%s%*s", text, size - length(text), ""
  }'
}

# names_unit COUNT: a unit that declares so many names.
names_unit() {
  awk -v count="$1" 'BEGIN { for (i = 0; i < count; i++) printf "int v%05d=%d;\n", i, i % 10 }'
}

# as_row UNIT: the row that asks for the depth of a unit's tree.
as_row() {
  printf 'depth '
  tr '\n' ' ' <"$1"
  echo
}

on_row() { "$rows" <"$1"; }

# told NAME: the times of a unit and of gcc, and what is left of the first one without that of a small row.
told() {
  local bytes depth ours theirs
  as_row "$work/$1.c" >"$work/$1.row"
  bytes=$(wc -c <"$work/$1.c")
  depth=$(on_row "$work/$1.row")
  case $depth in *[!0-9]*) echo "the unit has no tree: $depth"; exit 1 ;; esac
  ours=$(least_of 10 on_row "$1.row")
  theirs=$(least_of 5 gcc -std=c99 -fsyntax-only "$1.c")
  awk -v name="$1" -v bytes="$bytes" -v none="$small" -v ours="$ours" -v theirs="$theirs" 'BEGIN {
    printf "%s, %d bytes: tokens and tree %.1f ns a byte, %.1f ms; gcc -fsyntax-only %.1f ms, ratio %.2f\n", name, bytes, (ours - none) / bytes, ours / 1e6, theirs / 1e6, ours / theirs
  }'
}

echo 'depth int x;' >"$work/small.row"
small=$(least_of 20 on_row small.row)
c_unit 65536 >"$work/c_64_KiB.c"
c_unit 1048576 >"$work/c_1_MiB.c"
names_unit 70000 >"$work/names.c"
for unit in c_64_KiB c_1_MiB names; do told "$unit"; done

# switch_row COUNT: the row of a graph of so many nodes: the entry, the head of a loop, cases that the head goes to and that
# go back to it, and the node behind the loop.
switch_row() {
  awk -v count="$1" 'BEGIN {
    printf "shape 0 | 1 |"
    for (node = 2; node < count; node++) printf " %d", node
    for (node = 2; node < count - 1; node++) printf " | 1"
    print " |"
  }'
}

# chain_row COUNT STEP: the row of a chain of so many nodes, numbered forwards (STEP 1) or backwards (STEP -1).
chain_row() {
  awk -v count="$1" -v step="$2" 'BEGIN {
    last = step > 0 ? count - 1 : 0
    printf "shape %d", count - 1 - last
    for (node = 0; node < count; node++) printf node == last ? " |" : " | %d", node + step
    print ""
  }'
}

# shaped NAME: the time of a row of the stage `shape`.
shaped() {
  case $(on_row "$work/$1.row") in "(blocks "*) ;; *) echo "the graph $1 has no shape"; exit 1 ;; esac
  awk -v name="$1" -v ours="$(least_of 3 on_row "$1.row")" 'BEGIN {
    printf "shape of 5000 nodes, %s: %.1f ms\n", name, ours / 1e6
  }'
}

switch_row 5000 >"$work/switch_in_loop.row"
chain_row 5000 1 >"$work/chain_forwards.row"
chain_row 5000 -1 >"$work/chain_backwards.row"
for graph in switch_in_loop chain_forwards chain_backwards; do shaped "$graph"; done

# paced STORE WORK LIVE ROUNDS CALLS: the time of a call where a round of this work has so many.
paced() {
  echo "pace $1 $2 $3 0" >"$work/still.row"
  echo "pace $1 $2 $3 $4" >"$work/paced.row"
  [ "$(on_row "$work/paced.row")" = "$4" ] || { echo "a round of $2 failed"; exit 1; }
  awk -v store="$1" -v work="$2" -v live="$3" -v calls="$(($4 * $5))" -v none="$(least_of 5 on_row still.row)" -v ours="$(least_of 5 on_row paced.row)" 'BEGIN {
    printf "%s store, %s, %d live blocks: %.0f ns a call\n", store, work, live, (ours - none) / calls
  }'
}

rows_of stores
for store in list region; do
  paced "$store" mixed 1000 250000 4
  for live in 100 1000 10000; do
    paced "$store" access "$live" 500000 2
    paced "$store" churn "$live" 20000 2
  done
done

# crate_row SIZE: a row of a module with this many bytes of statements.
crate_row() {
  awk -v size="$1" 'BEGIN {
    line = "    x = (x * 3i32) + crate::a::f(x, (y as i32) - 7i32, *p.offset(2isize));$n"
    printf "module pub unsafe extern \"C\" fn main_0() -> i32 {$n"
    for (left = size; left >= length(line); left -= length(line) - 1) printf "%s", line
    print "    return 0i32;$n}$npub unsafe extern \"C\" fn run_static_initializers() {$n}$n"
  }'
}

rows_of crates
crate_row 0 >"$work/no_statements.row"
for size in 65536 262144 1048576; do
  crate_row "$size" >"$work/statements.row"
  [ "module $(on_row "$work/statements.row")" = "$(cat "$work/statements.row")" ] || { echo "the module isn't read"; exit 1; }
  awk -v size="$size" -v none="$(least_of 5 on_row "$work/no_statements.row")" -v ours="$(least_of 5 on_row "$work/statements.row")" 'BEGIN {
    printf "a module of %d bytes of statements, read and printed: %.0f ns a byte\n", size, (ours - none) / size
  }'
done

# run_row TURNS: a row of a run whose loop adds so many times.
run_row() {
  printf '%s%s%s\n' 'run 1000000000 list  | pub unsafe extern "C" fn main_0() -> i32 {$n    let mut i: i32 = core::mem::zeroed();$n    loop {$n        if i == ' \
    "$1" 'i32 {$n            return 0i32;$n        }$n        i = i + 1i32;$n    }$n    return 0i32;$n}$npub unsafe extern "C" fn run_static_initializers() {$n}$n'
}

run_row 1 >"$work/one_turn.row"
run_row 5000000 >"$work/turns.row"
[ "$(on_row "$work/turns.row")" = "ended 0 (5000003 units)" ] || { echo "the crate isn't run"; exit 1; }
awk -v none="$(least_of 5 on_row one_turn.row)" -v ours="$(least_of 5 on_row turns.row)" 'BEGIN {
  printf "a run of a loop of additions: %.2f million units a second\n", 5000 / ((ours - none) / 1e6)
}'

# timed NAME WORD..: the time and the memory of the program with these words.
timed() {
  local name=$1 said
  shift
  said=$(cd "$work" && /usr/bin/time -f '%U %M' "$program" "$@" 2>&1 >/dev/null | tail -1)
  awk -v name="$name" -v said="$said" 'BEGIN { split(said, part, " "); printf "%s: %.2f s, %.1f MB\n", name, part[1], part[2] * 1024 / 1e6 }'
}

if [ -x /usr/bin/time ]; then
  cat >"$work/loop.c" <<'C'
int main(void)
{
    int i = 0, sum = 0;
    while (i < 1000000) {
        sum = sum + 3;
        i = i + 1;
    }
    return sum != 3000000;
}
C
  cat >"$work/nodes.c" <<'C'
void *malloc(unsigned long);
void free(void *);
struct node { struct node *next; int value; };
int main(void)
{
    struct node *first = 0, *one;
    long sum = 0;
    int i;
    for (i = 0; i < 500000; i++) {
        one = malloc(sizeof *one);
        one->next = first;
        one->value = i;
        first = one;
    }
    for (one = first; one; one = one->next)
        sum += one->value;
    while (first) {
        one = first->next;
        free(first);
        first = one;
    }
    return sum != 124999750000;
}
C
  timed 'run-c of a loop, 10 million steps' run-c --steps 10000000 loop.c
  awk 'BEGIN {
    print "int main(void)\n{\n    int sum = 0, i;"
    for (n = 0; n < 65; n++) printf "    int a%d = %d;\n", n, n % 7
    printf "    for (i = 0; i < 100000; i++)\n        sum = a0"
    for (n = 1; n < 65; n++) printf " + a%d", n
    print ";\n    return sum == 0;\n}"
  }' >"$work/sums.c"
  timed 'run-c of sums of 65 locals, 10 million steps' run-c --steps 10000000 sums.c
  timed 'run-c of a list of 500,000 nodes' run-c --steps 1000000000 nodes.c

  # A unit of COUNT objects, of a structure of COUNT members, of COUNT levels of blocks, and of SIZE bytes of functions.
  objects() { awk -v n="$1" 'BEGIN { for (i = 0; i < n; i++) printf "int o%d;\n", i; print "int main(void) { return o1; }" }'; }
  members() { awk -v n="$1" 'BEGIN { print "struct s {"; for (i = 0; i < n; i++) printf "int m%d;\n", i; print "} x; int main(void) { return x.m1; }" }'; }
  levels() { awk -v n="$1" 'BEGIN { print "int main(void) {"; for (i = 0; i < n; i++) printf "{ int b%d = %d;\n", i, i; for (i = 0; i < n; i++) print "}"; print "return 0; }" }'; }
  functions() {
    awk -v size="$1" -v unit="$2" 'BEGIN {
      for (i = 0; done < size - 200; i++) {
        line = sprintf("int f%d_%d(int a) { int b = a + %d; if (b > 3) b = b * 2; else b -= 1; return b; }", unit, i, i)
        print line
        done += length(line) + 1
      }
      if (unit == 0) print "int main(void) { return f0_1(2); }"
    }'
  }

  back() { awk -v n="$1" 'BEGIN { print "int a[] = {"; for (i = 0; i < n; i++) printf "%d,\n", i; print "[0] = 1 }; int main(void) { return a[1]; }" }'; }

  # large NAME FILE..: the time of the program and its ratio to that of gcc.
  large() {
    local name=$1 ours theirs
    shift
    ours=$(cd "$work" && LD_PRELOAD=${allocator:-} /usr/bin/time -f '%e %M' "$program" transpile -o large "$@" 2>&1 >/dev/null | tail -1)
    theirs=$(cd "$work" && /usr/bin/time -f '%e' gcc -std=c99 -fsyntax-only "$@" 2>&1 >/dev/null | tail -1)
    awk -v name="$name" -v ours="$ours" -v theirs="$theirs" 'BEGIN {
      split(ours, part, " ")
      printf "%s: %.2f s, %.1f MB, gcc -fsyntax-only %.2f s, ratio %.1f\n", name, part[1], part[2] * 1024 / 1e6, theirs, part[1] / (theirs + 0.005)
    }'
  }
  for count in 17500 70000; do objects $count >"$work/large.c"; large "$count objects" large.c; done
  for count in 5000 20000; do members $count >"$work/large.c"; large "$count members" large.c; done
  for count in 100 400; do levels $count >"$work/large.c"; large "$count levels of blocks" large.c; done
  for count in 10000 40000; do back $count >"$work/large.c"; large "$count values and one back" large.c; done
  jemalloc=$(ldconfig -p 2>/dev/null | awk '/libjemalloc/ { print $NF; exit }')
  for count in 16 64; do
    names=()
    for unit in $(seq 0 $((count - 1))); do
      functions 1048576 "$unit" >"$work/large$unit.c"
      names+=("large$unit.c")
    done
    large "$count units of 1 MiB" "${names[@]}"
    [ -z "$jemalloc" ] || allocator=$jemalloc large "$count units of 1 MiB, with jemalloc" "${names[@]}"
  done
else
  echo "skipped: runs of C and large units (/usr/bin/time isn't there)"
fi

# full NAME ROW: the memory that the program takes where a row fills a region.
full() {
  echo "$2" >"$work/full.row"
  awk -v name="$1" -v kib="$(/usr/bin/time -f %M "$rows" <"$work/full.row" 2>&1 >/dev/null)" 'BEGIN {
    printf "a full region of %s: %.1f MB\n", name, kib * 1024 / 1e6
  }'
}

[ -x /usr/bin/time ] || { echo "skipped: the memory of a full region (/usr/bin/time isn't there)"; exit 0; }
rows_of stores
blocks='alloc 16777216 1 | alloc 16777216 1 | alloc 16777216 1 | alloc 16777216 1'
full '1 MiB' 'region 1048576 65552 | alloc 1048576 1'
full '64 MiB' "region 67108864 4194320 | $blocks"
