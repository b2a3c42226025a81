# Cases of tools/test: what roolvist-explain says of files, by the cases of tools/tests/explained.cases, of a fault in a file
# that is imported, of lines, and of the number of instructions. $explain runs the program.

explains() {
    "$explain" "$@" >"$scratch/said" 2>&1 </dev/null
    echo "= $?" >>"$scratch/said"
    tried="./roolvist-explain $*"
    ! is_wanted "explain: $*" || ends "explain: $*" "$scratch/wanted" "$scratch/said"
}

# Ends the case of the file $file, of which $scratch/wanted has what should come, but for the status.
end_case() {
    [ -n "$file" ] || return
    echo "= $status" >>"$scratch/wanted"
    explains "$file"
}

file=
while IFS= read -r line; do
    case $line in
        '$ '*)
            end_case
            read -r _ file status <<<"$line"
            : >"$scratch/wanted"
            ;;
        '' | '#'*) ;;
        *) [ -z "$file" ] || printf '%s\n' "$line" >>"$scratch/wanted" ;;
    esac
done <tools/tests/explained.cases
end_case

# A fault in a file that is imported is shown there.
printf '%s\n' 'from "near.bril" import @other;' '@main {' '}' >"$scratch/far.bril"
printf '%s\n' '@first {' '}' '@other(flag: bool) {' '  br flag .set .show;' '.set:' '  y: int = const 1;' '.show:' '  print y;' '}' \
    >"$scratch/near.bril"
cat >"$scratch/wanted" <<END
$scratch/near.bril:8:3: error: y may be read before it is assigned
    print y;
    ^
help: assign it on each way that leads here, also where a branch goes around
= 65
END
explains "$scratch/far.bril"

# A tab stays one below it, and a character of several bytes is one column.
printf '@main {\n\tc: char = const '"'é'"'; d: char = add c c;\n}\n' >"$scratch/wide.bril"
printf '%s:2:23: error: an operand or the destination has a wrong type\n  \tc: char = const '"'é'"'; d: char = add c c;\n  \t%21s^\n%s\n= 65\n' \
    "$scratch/wide.bril" '' 'help: compare the types of its variables with the row of the operation in docs/LANGUAGE.md' >"$scratch/wanted"
explains "$scratch/wide.bril"

# A variable that no item assigns.
printf '%s\n' '@main {' '  total: int = const 4;' '  more: int = add total totl;' '}' >"$scratch/misspelled.bril"
cat >"$scratch/wanted" <<END
$scratch/misspelled.bril:3:3: error: totl is assigned nowhere in its function
    more: int = add total totl;
    ^
help: assign it before this item, or correct its name
= 65
END
explains "$scratch/misspelled.bril"

# Too many bytes, and too many files.
head -c 16777217 /dev/zero >"$scratch/large.bril"
printf '%s: error: the program is too large\nhelp: all files of a program together have at most 16,777,216 bytes\n= 68\n' \
    "$scratch/large.bril" >"$scratch/wanted"
explains "$scratch/large.bril"
for number in $(seq 256); do
    echo "from \"f$number.bril\" import @f as @f$number;"
done >"$scratch/many.bril"
printf '%s: error: the program has more than 256 files\nhelp: %s\n= 68\n' "$scratch/many.bril" \
    'put functions that belong together into one file, and name each file by one path' >"$scratch/wanted"
explains "$scratch/many.bril"

# What a line means, by the first row that fits it.
means() {
    printf '%s\n= 0\n' "$2" >"$scratch/wanted"
    explains --status "$1"
}
means 'fault 5 Access' \
    'load or store went outside a block, or to a block that was freed. Compare the offsets of ptradd with the size of the alloc.'
means 'spent 1000' \
    "The program still runs after so many steps, or machine words for run. Give more --steps, or look for a loop that doesn't end."
means 'too large: code 260000' "The bounds on the machine words of the program after the passes add up to more than 250,000. \
Shorten it, by --passes dead,tidy if that is enough, or use interp."
means 'a file.bril: text 3 at 12' \
    "The number at this byte doesn't fit 64 bits. An int goes from -9223372036854775808 to 9223372036854775807."
printf 'no command of roolvist writes such a line\n= 64\n' >"$scratch/wanted"
explains --status 'nothing'

# Three instructions: the constant, the jump and the print. The label is none, nor is the end.
printf '%s\n' '@main {' '  a: int = const 7;' '  jmp .end;' '.end:' '  print a;' '}' >"$scratch/three.bril"
printf '7\ntotal_dyn_inst: 3\n= 0\n' >"$scratch/wanted"
explains --count "$scratch/three.bril"
printf 'cannot read %s\n= 66\n' "$scratch/none.bril" >"$scratch/wanted"
explains --count "$scratch/none.bril"
printf '%s\n= 64\n' 'usage: roolvist-explain FILE, or --status LINE, or --count FILE [-- ARGS]' >"$scratch/wanted"
explains --help
