#!/usr/bin/env bash
# Tests that need tools from outside the proof kit: gcc, and cargo or rustc. Each skips by name what isn't
# there. The program is run on the first unit in a fresh folder, the crate that it writes is built and run,
# and its exit status is compared with that of gcc's build of the same unit.
set -u
top=$(cd "$(dirname "$0")/.." && pwd)
work=$(mktemp -d) || exit 1
trap 'rm -rf "$work"' EXIT
passed=0
failed=0
skipped=0

ok() { passed=$((passed + 1)); echo "ok: $1"; }
bad() { failed=$((failed + 1)); echo "FAILED: $1"; }
skip() { skipped=$((skipped + 1)); echo "skipped: $1"; }

# built NAME: whether a program of this repository is there, built by the kit over what it has proved: the gate leaves it
# there, and it is built anew where a source is newer. It is $program then.
built() {
  program="$top/crates/$1/out/$1"
  local newer
  newer=$(find "$top/crates.txt" "$top"/crates/*/src "$top"/crates/*/specs "$top"/crates/*/proofs -newer "$program" 2>&1)
  # Where the gate has just failed there is nothing to test, and a build would prove all crates below anew.
  if [ "${GATE:-0}" -eq 0 ] && { [ ! -x "$program" ] || [ -n "$newer" ]; }; then
    (cd "$top/crates/$1" && rt run -- >"$work/build.log" 2>&1 </dev/null)
  fi
  if [ ! -x "$program" ]; then
    echo "FAILED: the program $1 wasn't built"
    tail -5 "$work/build.log" 2>/dev/null
    return 1
  fi
}

# group NAME: a program for the rows of this group alone, as those that compare answers want it. It is $rows then.
group() {
  rows="$work/$1"
  printf '#!/bin/sh\nexec "%s/tests/rows_of" %s\n' "$top" "$1" >"$rows"
  chmod +x "$rows"
}

built rows || exit 1
group texts
text_rows=$rows
group stores
store_rows=$rows
group crates
crate_rows=$rows
group checks
check_rows=$rows
group forms
form_rows=$rows
group records
record_rows=$rows
group flows
flow_rows=$rows
built c2rs || exit 1

# The exit status of a unit, as gcc builds it.
status_by_gcc() {
  gcc -std=c99 -o "$work/by_gcc" "$1" || return 255
  "$work/by_gcc"
}

# Builds the crate in a folder, by cargo or by rustc, and says where the program is.
build_crate() {
  if command -v cargo >/dev/null 2>&1; then
    (cd "$1" && cargo build --offline --quiet >/dev/null 2>&1) || return 1
    built="$1/target/debug/translated"
  else
    rustc --edition 2021 -o "$1/translated" "$1/src/main.rs" || return 1
    built="$1/translated"
  fi
}

# one NAME: translates examples/NAME.c and compares the two exit statuses.
one() {
  local name=$1
  local out="$work/$name"
  cp "$top/examples/$name.c" "$work/"
  if ! (cd "$work" && "$program" transpile -o "$name" "$name.c"); then
    bad "$name.c is translated"
    return
  fi
  ok "$name.c is translated"
  if ! command -v cargo >/dev/null 2>&1 && ! command -v rustc >/dev/null 2>&1; then
    skip "the crate of $name.c is built (neither cargo nor rustc is there)"
    return
  fi
  if ! build_crate "$out"; then
    bad "the crate of $name.c is built"
    return
  fi
  ok "the crate of $name.c is built"
  "$built" >"$work/written"
  local got=$?
  if ! command -v gcc >/dev/null 2>&1; then
    skip "the status of $name.c by gcc (gcc isn't there)"
    return
  fi
  status_by_gcc "$work/$name.c" >"$work/wanted"
  local want=$?
  if [ "$got" -eq "$want" ] && cmp -s "$work/written" "$work/wanted"; then
    ok "the crate of $name.c writes and ends with $want as gcc's program does"
  else
    bad "the crate of $name.c ends with $got, and gcc's program with $want, or they write different bytes"
  fi
}

# report STATUS TEXT WORD..: the program ends with this status and this line on standard error.
report() {
  local status=$1 text=$2
  shift 2
  (cd "$work" && "$program" "$@" >"$work/stdout" 2>"$work/stderr")
  local got=$?
  if [ "$got" -eq "$status" ] && [ ! -s "$work/stdout" ] && [ "$(cat "$work/stderr")" = "$text" ]; then
    ok "status $status: $text"
  else
    bad "status $status: $text (got $got: $(cat "$work/stderr"))"
  fi
}

# Each request for memory of a translation is refused in turn: the answer is that with ample memory, or want of
# memory, and then `Cargo.toml` wasn't put.
refused_in_turn() {
  if ! command -v gcc >/dev/null 2>&1; then
    skip "requests for memory refused in turn (gcc isn't there)"
    return
  fi
  gcc -shared -fPIC -o "$work/refused.so" "$top/tests/refuse_memory.c" -ldl || { bad "the refusing allocator is built"; return; }
  local number wanting=0
  for number in $(seq 1 100); do
    rm -rf "$work/turn"
    (cd "$work" && REFUSED=$number LD_PRELOAD="$work/refused.so" "$program" transpile -o turn answer.c >"$work/stdout" 2>"$work/stderr")
    local got=$?
    if [ "$got" -eq 10 ] && [ "$(cat "$work/stderr")" = 'c2rs: out of memory' ] && [ ! -e "$work/turn/Cargo.toml" ]; then
      wanting=$((wanting + 1))
    elif [ "$got" -ne 0 ] || ! diff -r -x target -x Cargo.lock "$work/answer" "$work/turn" >/dev/null; then
      bad "request $number for memory is refused (got $got: $(cat "$work/stderr"))"
      return
    fi
  done
  if [ "$wanting" -eq 0 ]; then
    bad "no refused request for memory was noticed"
  else
    ok "100 requests for memory are refused in turn, of which $wanting end the job"
  fi
}

# every_request NAME WORD..: each request for memory of a job over one unit is refused in turn: the answer and the report are those with ample memory,
# or the answer is want of memory.
every_request() {
  local name=$1 want wanting said count
  shift
  if ! command -v gcc >/dev/null 2>&1; then
    skip "each request for memory of $name refused in turn (gcc isn't there)"
    return
  fi
  gcc -shared -fPIC -o "$work/refused.so" "$top/tests/refuse_memory.c" -ldl || { bad "the refusing allocator is built"; return; }
  (cd "$work" && REQUESTS="$work/requests" LD_PRELOAD="$work/refused.so" "$program" "$@" >/dev/null 2>"$work/wanted")
  want=$?
  count=$(cat "$work/requests")
  cat >"$work/turn.sh" <<'SH'
#!/usr/bin/env bash
# turn.sh NUMBER PROGRAM WANT WORD..: says what came of the job where the request with a number is refused
number=$1 program=$2 want=$3
shift 3
said=$(REFUSED=$number LD_PRELOAD=./refused.so "$program" "$@" 2>&1 >/dev/null)
got=$?
if [ "$got" -eq 10 ] && [ "$said" = 'c2rs: out of memory' ]; then
  echo wanting
elif [ "$got" -eq "$want" ] && [ "$said" = "$(cat wanted)" ]; then
  echo same
else
  echo "request $number: $got $said"
fi
SH
  said=$(cd "$work" && seq 1 "$count" | xargs -P "$(nproc)" -I NUMBER bash turn.sh NUMBER "$program" "$want" "$@")
  wanting=$(grep -c '^wanting$' <<<"$said")
  if grep -q '^request' <<<"$said"; then
    bad "requests for memory of $name are refused: $(grep -m 1 '^request' <<<"$said")"
  elif [ "$wanting" -eq 0 ]; then
    bad "no refused request for memory of $name was noticed"
  else
    ok "$count requests for memory of $name are refused in turn, of which $wanting end the job"
  fi
}

# tools_for TEST TOOL..: whether the tools of a test are there, and a python3 that it can use; otherwise it is skipped.
tools_for() {
  local test=$1 tool
  shift
  for tool in "$@"; do
    if ! command -v "$tool" >/dev/null 2>&1; then
      skip "$test ($tool isn't there)"
      return 1
    fi
  done
  if ! python3 -c 'import sys; sys.exit(sys.version_info < (3, 10))'; then
    skip "$test (python3 is older than 3.10)"
    return 1
  fi
}

# The crate of the rows in which each form of the written crates stands: rustc takes it, and its program writes these bytes and ends
# with this status, which are worked out by hand.
every_form() {
  local row name text
  if ! command -v rustc >/dev/null 2>&1; then
    skip 'the crate with every form (rustc isn'"'"'t there)'
    return
  fi
  row=$(grep -A 1 '^# A crate in which each form of the subset stands' "$top/crates/rows/stdin" | tail -1)
  mkdir -p "$work/every/src"
  while read -r name text; do
    printf '%s' "$text" | sed 's/\$n/\n/g; s/\$7c/|/g; s/\$24/$/g' >"$work/every/$name"
  done < <(printf '%s\n' "${row#crate }" | sed 's/ | /\n/g')
  if ! (cd "$work/every" && rustc --edition 2021 -A warnings -o translated src/main.rs) 2>"$work/rustc.log"; then
    bad "rustc takes the crate with every form: $(head -3 "$work/rustc.log")"
    return
  fi
  "$work/every/translated" >"$work/written"
  local got=$?
  if [ "$got" -eq 13 ] && printf 'aH\377i\nhi' | cmp -s - "$work/written"; then
    ok 'rustc takes the crate with every form, whose program writes 7 bytes and ends with 13'
  else
    bad "the program of the crate with every form ends with $got, or writes other bytes"
  fi
}

# A crate whose blocks nest 1,000 deep is read and printed within 8 MiB of stack.
nested_blocks() {
  local head='pub unsafe extern "C" fn main_0() -> i32 {$n' last='return 1i32;$n}$npub unsafe extern "C" fn run_static_initializers() {$n}$n'
  printf 'module %s%s%s%s\n' "$head" "$(yes 'loop {$n' | head -1000 | tr -d '\n')" "$(yes '}$n' | head -1000 | tr -d '\n')" "$last" >"$work/nested"
  if [ "$( (ulimit -s 8192; "$crate_rows" <"$work/nested") | grep -o 'loop {\$n' | wc -l)" -eq 1000 ]; then
    ok 'blocks that nest 1,000 deep are read and printed'
  else
    bad 'blocks that nest 1,000 deep are read and printed'
  fi
}

# Runs of crates within 8 MiB of stack: calls and blocks 1,000 deep, and calls without end, which are want of memory and no crash.
deep_runs() {
  if (ulimit -s 8192; "$crate_rows" <"$top/tests/deep_runs.rows") 2>&1 | cmp -s - "$top/tests/deep_runs.answers"; then
    ok 'calls and blocks run 1,000 deep, and calls without end are want of memory'
  else
    bad 'calls and blocks run 1,000 deep, and calls without end are want of memory'
  fi
}

# Random straight `int` units: what the programs of their crates show is compared with an evaluator of C99 that
# shares nothing with the program, and this with gcc's programs.
straight_units() {
  local said
  tools_for 'random straight units' python3 rustc gcc stdbuf || return
  if ! said=$(python3 "$top/tests/straight_units.py" --self-test 2>&1); then
    bad "the evaluator of straight units: $said"
  elif ! said=$(python3 "$top/tests/straight_units.py" --c2rs "$program" --folder "$work/straight" 2>&1); then
    bad "random straight units: $said"
  else
    ok "random straight units: $said"
  fi
}

# Units near the form: the program takes those that a reader of its own takes, and gcc takes them too; it refuses the
# others.
straight_mutants() {
  local said
  tools_for 'units near the form' python3 gcc || return
  if ! said=$(python3 "$top/tests/straight_mutants.py" --c2rs "$program" --folder "$work/mutants" 2>&1); then
    bad "units near the form: $said"
  else
    ok "units near the form: $said"
  fi
}

# A script of tests/ that compares what a program answers: its title, its name, the option for the program, the program, and the tools that it needs.
compared() {
  local said title=$1 script=$2 option=$3 answers=$4
  shift 4
  tools_for "$title" python3 "$@" || return
  if ! said=$(python3 "$top/tests/$script" "$option" "$answers" 2>&1); then
    bad "$title: $said"
  else
    ok "$title: $said"
  fi
}

# Units near C99: those have a syntax tree in which gcc finds no syntax error, but for kinds of difference that are known.
syntax_mutants() {
  compared 'units near C99' syntax_mutants.py --rows "$text_rows" gcc
}

# Random expressions: those break a constraint in which gcc finds an error, the profile's own rules apart.
random_expressions() {
  compared 'random expressions' expressions.py --rows "$check_rows" gcc
}

# Random compound literals: those break a constraint in which gcc finds an error, and the others are as long.
random_initialisers() {
  compared 'random compound literals' initialisers.py --rows "$check_rows" gcc
}

# Units near those of the profile: those break a rule in which gcc finds an error, but for kinds of difference that are known.
unit_mutants() {
  compared 'mutants of units' unit_mutants.py --rows "$check_rows" gcc
}

# Random control flow graphs: their shapes fit them, with a dispatch exactly where one is irreducible.
relooper_graphs() {
  compared 'shapes of random graphs' relooper_graphs.py --rows "$text_rows"
}

# Random flows: their bodies do what walks along them do, and long ones are written in proportion.
random_flows() {
  local said
  tools_for 'bodies of random flows' python3 rustc || return
  if ! said=$(python3 "$top/tests/random_flows.py" --rows "$flow_rows" --c2rs "$program" 2>&1); then
    bad "bodies of random flows: $said"
  else
    ok "bodies of random flows: $said"
  fi
}

# Random records of C: a model of the ABI and gcc lay them out alike. The model's answers are rows of the gate.
random_records() {
  local said
  tools_for 'random records' python3 gcc || return
  if ! said=$(python3 "$top/tests/layout_records.py" 2>&1); then
    bad "random records: $said"
  else
    ok "random records: $said"
  fi
}

# Random records as they are written: rustc lays them out as gcc lays out those of C.
record_items() {
  compared 'random records as they are written' record_items.py --rows "$record_rows" gcc rustc
}

# Random crates of names alone: rustc takes each.
crate_names() {
  compared 'random crates of names' crate_names.py --rows "$crate_rows" rustc
}

# 70,000 locals of one name, as many of names that differ, and as many temporaries get their names in some seconds of a processor.
many_names() {
  local title='70,000 locals of one name, of names that differ, and temporaries'
  {
    printf 'name given @function%s\n' "$(yes ' x' | head -70000 | tr -d '\n')"
    printf 'name given @function%s\n' "$(seq -f ' n%.0f' 70000 | tr -d '\n')"
    printf 'name given @function%s\n' "$(yes ' t' | head -70000 | tr -d '\n')"
    printf 'name kept 70000\n'
  } >"$work/names"
  if (ulimit -t 20; "$crate_rows" <"$work/names" >"$work/given") && [ "$(awk '{ print NF, $NF }' "$work/given" | tr '\n' ' ')" = '70001 x_69998 70001 n70000 70001 t_69998 1 70000 ' ]; then
    ok "$title get their names"
  else
    bad "$title get their names"
  fi
}

# Runs of crates: those rows that end do so as the programs of rustc do, and write the same.
crate_runs() {
  local said
  tools_for 'runs of crates' python3 rustc || return
  if ! said=$(python3 "$top/tests/crate_runs.py" 2>&1); then
    bad "runs of crates: $said"
  else
    ok "$said"
  fi
}

# Random calls of a store in a region: its answers are those of a list store, and it refuses what a model says.
region_turns() {
  local said
  tools_for 'random calls of a store in a region' python3 || return
  if ! said=$(python3 "$top/tests/region_turns.py" --rows "$store_rows" 2>&1); then
    bad "random calls of a store in a region: $said"
  else
    ok "random calls of a store in a region: $said"
  fi
}

# Runs of C programs: those of tests/programs/ end and write as gcc's do, and those of tests/undefined/ are told at their line.
c_runs() {
  local said
  tools_for 'runs of C programs' python3 gcc || return
  if ! said=$(python3 "$top/tests/runs.py" --c2rs "$program" 2>&1); then
    bad "runs of C programs: $said"
  else
    ok "runs of C programs: $(tail -1 <<<"$said")"
  fi
}

# Random C programs: they end and write as gcc's do, in any order of evaluation, and what gcc's checks find is told at its line.
random_runs() {
  compared 'runs of random programs' random_runs.py --c2rs "$program" gcc stdbuf
}

# Random crates: they end and write as rustc's programs do, and where these panic the run is wrong by that cause.
random_crates() {
  compared 'runs of random crates' random_crates.py --c2rs "$program" rustc stdbuf
}

# Forms of expressions and of bit-fields, generated: they give what C gives, by `run-c`, by gcc and by a model.
form_tables() {
  local said
  tools_for 'forms of expressions' python3 gcc || return
  if ! said=$(python3 "$top/tests/form_tables.py" --forms "$form_rows" --crates "$crate_rows" --c2rs "$program" 2>&1); then
    bad "forms of expressions: $said"
  else
    ok "forms of expressions: $said"
  fi
}

one answer
one letter
refused_in_turn
cp "$top/tests/constructs.c" "$work/"
every_request "a unit with every construct" transpile -o constructs constructs.c
every_request "a run of every construct" run-c constructs.c
c_runs
random_runs
straight_units
straight_mutants
syntax_mutants
random_expressions
random_initialisers
unit_mutants
relooper_graphs
random_flows
random_records
record_items
crate_names
many_names
crate_runs
random_crates
form_tables
region_turns
every_form
nested_blocks
deep_runs
usage='c2rs: usage: transpile -o DIR FILE.. | run-c [--steps N] [--order LIST] FILE.. | run-rust [--steps N] DIR'
report 2 "$usage"
report 2 "$usage" transpile -o out -o out answer.c
report 2 "$usage" --help
report 2 "$usage" transpile -o out -- answer.c
report 1 'answer.c:1: L1: second definition' transpile answer.c -oout answer.c
report 2 "$usage" transpile -o out "$(printf '\377.c')"
report 3 'c2rs: cannot read no.c' transpile -o out no.c
printf 'int main(void) { return 1u; }' >"$work/a.c"
report 1 'a.c:1: N1: not built' transpile -o out a.c
printf 'int x;\ndouble y;\n' >"$work/b.c"
report 1 'b.c:2: O1: floating word' transpile -o out b.c
head -c 1048577 /dev/zero | tr '\0' ' ' >"$work/large.c"
report 1 'large.c: M1: unit too large' transpile -o out large.c
printf 'int f(void);\n' >"$work/none.c"
report 1 'c2rs: L3: main' transpile -o out none.c
report 1 'b.c:2: O1: floating word' transpile -o out a.c b.c large.c
report 1 'a.c:1: N1: not built' transpile -o out a.c none.c
touch "$work/file"
report 4 'c2rs: cannot write file/src/answer.rs' transpile -o file answer.c

echo "outside: $passed passed, $failed failed, $skipped skipped"
[ "$failed" -eq 0 ]
