# Cases of tools/test: the command lines of examples/runs, of the tools and of the pages, that the programs of examples/ do the
# same in all ways, that output which can't be written is told, that a terminal gets each line at once, and the canonical texts.

# Runs a command line, and leaves what it writes on the two outputs in `out` and `err`, and its status in $status.
run() {
    tried=$1
    (eval "$1") >"$scratch/out" 2>"$scratch/err" </dev/null
    status=$?
}

# The same for the words of a command line of the program, which is called without the launcher.
run_program() {
    tried="./roolvist $1"
    (eval "\"\$program\" $1") >"$scratch/out" 2>"$scratch/err" </dev/null
    status=$?
}

# Writes to `came` what the last command line left: its output, its error output with `! ` before each line, and `= STATUS` if
# that isn't 0.
show() {
    {
        cat "$scratch/out"
        sed 's/^/! /' "$scratch/err"
        [ "$status" -eq 0 ] || echo "= $status"
    } >"$scratch/came"
}

# The same without the status and the marks, as the pages have it.
show_plainly() {
    cat "$scratch/out" "$scratch/err" >"$scratch/came"
}

# Tries the command lines of standard input, each a line `$ COMMAND` with what it must leave below it, as $1 shows it. A line
# that begins with `#` ends that, and so does an empty line unless $1 is show_plainly: there it is a line of the output.
replay() {
    local line command=
    : >"$scratch/expected"
    while IFS= read -r line; do
        case $line in
            '$ '* | '#'*)
                [ -z "$command" ] || replay_one "$command" "$1"
                command=${line#\$ }
                case $line in '#'*) command= ;; esac
                : >"$scratch/expected"
                ;;
            *)
                [ -z "$line" ] && [ "$1" = show ] || printf '%s\n' "$line" >>"$scratch/expected"
                ;;
        esac
    done
    [ -z "$command" ] || replay_one "$command" "$1"
}

replay_one() {
    is_wanted "$1" || return
    run "$1"
    "$2"
    ends "$1" "$scratch/expected" "$scratch/came"
}

replay show <examples/runs

# Those of the tools in Python.
pages="README.md CONTRIBUTING.md $(echo docs/*.md)"
if has "the command lines of tools/ and of docs/COURSE.md" python3; then
    replay show <tools/tests/course.runs
else
    pages=${pages/docs\/COURSE.md/}
fi

for page in $pages; do
    awk '/^```console$/ { inside = 1; next } /^```$/ { inside = 0 } inside' "$page" >"$scratch/page"
    replay show_plainly <"$scratch/page"
done

# What tools/cfg writes is taken by dot, where that is installed.
if has "the flow graphs" dot python3; then
    for words in letters.bril levels.bril queue.bril 'factorial.bril --passes trace --profile examples/next.profile -- 20'; do
        is_wanted "dot: $words" || continue
        run "tools/cfg examples/$words | dot -Tsvg | grep -c '^</svg>'"
        show
        echo 1 >"$scratch/expected"
        ends "dot: $words" "$scratch/expected" "$scratch/came"
    done
fi

# tools/step by hand, here by a pipe: it shows the item at each stop, and its variables.
step_by_hand() {
    is_wanted "tools/step" || return
    run "printf 'break main 6\\ngo\\nstep\\nbreak f\\nquit\\n' | tools/step examples/guess.bril -- 2"
    show
    cat >"$scratch/expected" <<'END'
stop @main 6
    guard more .done;
    n: 2
    one: 1
    i: 1
    more: true
stop @main 7
    commit;
    n: 2
    one: 1
    i: 1
break F N, clear F N, go, step, show, list or quit
END
    ends "tools/step" "$scratch/expected" "$scratch/came"
}
step_by_hand

# The files of `elf` are read by other tools, where they are installed: the headers by readelf, and the words behind them by
# objdump, which writes what `list` writes but for blanks, the base of numbers and where a jump leads.
. tools/tests/other_readers.sh

# Output that can't be written is told by status 74, and not by a signal: on a full device and on one that fills in the middle,
# after all is printed, after a fault and after spent steps, and by a reader that closes the pipe at once or in the middle.
printf '! cannot write\n= 74\n' >"$scratch/cannot_write"
cannot_write() {
    is_wanted "$1" || return
    run "$2"
    status=$(cat "$scratch/status")
    [ "$status" -ne 74 ] || sed -i -n '/^cannot write$/p' "$scratch/err"
    show
    ends "$1" "$scratch/cannot_write" "$scratch/came"
}

# 200,000 makes it print more than a pipe holds, so that its last write comes after the reader is gone.
for command in run interp; do
    for words in 'examples/primes.bril -- 20000' 'examples/faults/leak.bril' 'examples/primes.bril --steps 100000 -- 20000'; do
        cannot_write "$command $words, a full device" \
            "./roolvist $command $words >/dev/full; echo \$? >'$scratch/status'"
    done
    cannot_write "$command, a device that fills in the middle" \
        "(trap '' XFSZ; ulimit -f 4; exec ./roolvist $command examples/primes.bril -- 20000 >'$scratch/part')
        echo \$? >'$scratch/status'"
    cannot_write "$command, a pipe that is closed at once" \
        "{ ./roolvist $command examples/primes.bril -- 200000; echo \$? >'$scratch/status'; } | true"
    cannot_write "$command, a pipe that is closed in the middle" \
        "{ ./roolvist $command examples/primes.bril -- 200000; echo \$? >'$scratch/status'; } | head -n 1 >/dev/null"
done

# On a terminal each line is written at once, so it is there although the program runs on until it is killed; elsewhere it is held
# back until there is more.
cat >"$scratch/endless.bril" <<'EOF'
@main {
  one: int = const 1;
  print one;
.again:
  jmp .again;
}
EOF
until_killed() {
    is_wanted "$1" || return
    printf "$2" >"$scratch/expected"
    run "$3"
    ends "$1" "$scratch/expected" "$scratch/out"
}
if has "the cases on a terminal" script timeout tr; then
    for command in run interp; do
        endless="./roolvist $command $scratch/endless.bril --steps 1000000000000"
        until_killed "$command, a line on a terminal" '1\n' "timeout 3 script -qc '$endless' /dev/null | tr -d '\\r'"
        until_killed "$command, a line in a pipe" '' "timeout 3 $endless | cat"
    done
fi

# Each program that is interpreted or run in examples/runs prints and ends alike in three ways: interpreted, as machine words,
# and as machine words after passes. One that ends or stops with a fault is recorded too, with two numbers of arrivals after
# which a label counts as hot, and prints and ends alike after all passes, with its own profile, with that in version 1, and
# with that of the run before. Steps and counts are left out, since they differ.
all_passes=trace,side,ssa,const,dead,unssa,merge,tidy,color

# What is left of a run is expected of the others, but for the name of the command in a usage line.
same_command='s/^(! Usage: roolvist) (interp|run)/\1/'

# Tries the words of a command line that must leave what interpreting the program left.
as_interpreted() {
    run_program "$2"
    show
    sed -E -i "$same_command" "$scratch/came"
    ends "$1" "$scratch/interpreted" "$scratch/came"
}

other=$scratch/other.profile
printf 'bril-profile 2\n' >"$other"
grep -E '^\$ ./roolvist (interp|run) examples/' examples/runs | grep -v -e '--steps' -e '--stats' -e '--passes' -e '--profile' |
    sed -E 's/^\$ .\/roolvist (interp|run) //' | sort -u >"$scratch/programs"
while IFS= read -r words; do
    is_wanted "all ways: $words" || continue
    file=${words%% *}
    rest=${words#"$file"}
    run_program "interp $words"
    show
    interpreted=$status
    sed -E "$same_command" "$scratch/came" >"$scratch/interpreted"
    as_interpreted "all ways: $words" "run $words"
    for list in $all_passes ssa ssa,unssa ssa,dead,tidy,unssa; do
        as_interpreted "all ways: $words" "run $file --passes $list$rest"
    done
    [ "$interpreted" -eq 0 ] || [ "$interpreted" -eq 2 ] || continue
    for hot in 1 2; do
        run_program "record --hot $hot $words"
        cp "$scratch/out" "$scratch/own.profile"
        sed -e '1s/2$/1/' -e '1!s/ [0-9]*$//' "$scratch/own.profile" >"$scratch/first.profile"
        for profile in "$scratch/own.profile" "$scratch/first.profile" "$other"; do
            as_interpreted "all ways: $words" "run $file --passes $all_passes --profile $profile$rest"
        done
        cp "$scratch/own.profile" "$other"
    done
done <"$scratch/programs"

# Each example is written as its canonical text and as its canonical JSON, which are written as each other.
for canonical in examples/canonical/*.bril; do
    example=$(basename "$canonical" .bril)
    for source in "examples/$example.bril" "$canonical" "examples/canonical/$example.json"; do
        for form in text json; do
            case $form in
                text) expected=$canonical ;;
                json) expected=examples/canonical/$example.json ;;
            esac
            is_wanted "$form $source, as $expected" || continue
            run_program "$form $source"
            ends "$form $source, as $expected" "$expected" "$scratch/out"
        done
    done
done
