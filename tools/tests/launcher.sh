# Cases of tools/test: what the launcher runs and what it refuses, in a small repository with a program of a few lines. Each
# goes on from what the one before it left, so all of them are run, whichever is asked for.

small=$scratch/a\ repository
mkdir -p "$scratch/bin" "$scratch/tmp" "$small/tools" "$small/release" "$small/crates/other/src"
for part in src specs proofs; do
    mkdir -p "$small/crates/roolvist/$part"
done
cp roolvist "$small"
cp tools/shipped.sh tools/prove "$small/tools"
printf 'roolvist: lower\nlower:\nother:\n' >"$small/crates.txt"
echo 'fn main() {}' >"$small/crates/roolvist/src/main.rt"
touch -d '1 hour ago' "$small/crates.txt" "$small/crates/roolvist/src/main.rt"
ln -s 'a repository/roolvist' "$scratch/link"
printf '#!/bin/sh\n[ "$*" = -s ] && echo Linux || echo aarch64\n' >"$scratch/bin/uname"
chmod 755 "$scratch/bin/uname"

# Ships a program, as tools/prove --ship does.
ship() {
    (
        root=$small
        . tools/shipped.sh
        gzip -9n <"$1" >"$packed"
        printf '%s\n' "version 1.2.3" "program $(sum_of "$1")" "sources $(sources_sum)" "toolchain none" >"$sums"
    )
    rm -rf "$small/out"
}

# A program that tells its words, and a program that can't run.
program_that() {
    printf '#!/bin/sh\n[ "$*" != --help ] || exit %s\necho "%s: $*"\nexit 7\n' "$1" "$2" >"$scratch/small"
    chmod 755 "$scratch/small"
}

# Tries the command line $2, from above the repository: it must leave the lines of standard input, the last of which is
# `= STATUS`.
answers() {
    cat >"$scratch/expected"
    tried=$2
    (unset ROOLVIST_OUT && cd "$scratch" && eval "$2") >"$scratch/came" 2>&1 </dev/null
    echo "= $?" >>"$scratch/came"
    # Between brackets a refusal tells what this machine is.
    sed -i 's/ (.*)/ (..)/' "$scratch/came"
    ! is_wanted "$1" || ends "$1" "$scratch/expected" "$scratch/came"
}

other_machine="roolvist: the shipped program runs on x86-64 Linux with glibc 2.34 or later, on processors of x86-64-v2, \
and not here (..): tools/prove builds one where the toolchain runs"
other_sources="roolvist: the sources here are not those that the shipped program was built from: \
tools/prove proves them and builds it"
unusable="roolvist: release/roolvist-x86_64-linux.gz can't be used"
mended='git checkout -- release brings it back, and tools/prove builds the program'

program_that 64 shipped
ship "$scratch/small"
answers 'launcher: a first start, by a symbolic link' './link run "a b" c' <<'END'
shipped: run a b c
= 7
END
answers 'launcher: a second start' './link run; ls "$small/out"' <<'END'
shipped: run
checked
roolvist
= 0
END
answers 'launcher: the number of the release' './link --version' <<'END'
roolvist 1.2.3
= 0
END
answers 'launcher: a word after --version is for the program' './link --version run' <<'END'
shipped: --version run
= 7
END
answers 'launcher: the path of the program' './link --where | sed s/.*repository//' <<'END'
/out/roolvist
= 0
END
answers 'launcher: eight first starts at once' \
    'rm -r "$small/out"; for i in 1 2 3 4 5 6 7 8; do ./link run & done; wait; ls "$small/out"' <<'END'
shipped: run
shipped: run
shipped: run
shipped: run
shipped: run
shipped: run
shipped: run
shipped: run
checked
roolvist
= 0
END
answers 'launcher: an unpacked program that was cut' ': >"$small/out/roolvist"; ./link run' <<'END'
shipped: run
= 7
END
answers 'launcher: a folder that cannot be written' \
    'ROOLVIST_OUT=/dev/null/out TMPDIR=$scratch/tmp ./link run "a b"; status=$?; ls "$scratch/tmp"; (exit $status)' <<'END'
shipped: run a b
= 7
END
answers 'launcher: a full disk' \
    'rm -r "$small/out"; (trap "" XFSZ; ulimit -f 0; TMPDIR=$scratch/tmp ./link run) 2>&1 | cat
    ls "$small/out" "$scratch/tmp" | grep roolvist' <<END
roolvist: the shipped program can be unpacked and run neither in $(cd "$small" && pwd -P)/out nor in $scratch/tmp: \
TMPDIR may name a folder with 1 MB left
= 1
END
answers 'launcher: another processor' 'PATH=$scratch/bin:$PATH ./link run' <<END
$other_machine
= 1
END

# A program that was built here runs instead, until a source is newer.
mkdir "$small/crates/roolvist/out"
program_that 64 built
cp "$scratch/small" "$small/crates/roolvist/out/roolvist"
answers 'launcher: a program that was built here' './link run' <<'END'
built: run
= 7
END
answers 'launcher: a program that was built before a change of a crate that it does not use' \
    'touch -d "1 minute" "$small/crates/other/src/lib.rt"; ./link run' <<'END'
built: run
= 7
END
answers 'launcher: a program that was built before a source was touched' \
    'touch -d "1 minute" "$small/crates/roolvist/src/main.rt"; ./link run' <<'END'
shipped: run
= 7
END
rm -r "$small/crates/roolvist/out"

answers 'launcher: a change of a crate that the program does not use' \
    'echo more >>"$small/crates/other/src/lib.rt"; ./link run' <<'END'
shipped: run
= 7
END
answers 'launcher: a changed source' 'echo "// more" >>"$small/crates/roolvist/src/main.rt"; ./link run' <<END
$other_sources
= 1
END
answers 'launcher: a source that was changed back' 'echo "fn main() {}" >"$small/crates/roolvist/src/main.rt"; ./link run' <<'END'
shipped: run
= 7
END
answers 'launcher: one source more' 'touch "$small/crates/roolvist/specs/Lib.antt"; ./link run' <<END
$other_sources
= 1
END
rm "$small/crates/roolvist/specs/Lib.antt"

head -c 30 "$small/release/roolvist-x86_64-linux.gz" >"$scratch/cut"
cp "$scratch/cut" "$small/release/roolvist-x86_64-linux.gz"
answers 'launcher: a cut file' './link run' <<END
$unusable: it is cut or damaged; $mended
= 1
END
ship "$scratch/small"
sed -i 's/^program ./program x/' "$small/release/sums"
answers 'launcher: a wrong sum' './link run; status=$?; ls "$small/out"; (exit $status)' <<END
$unusable: the program in it has another sum than the one in release/sums; $mended
= 1
END
rm "$small/release/sums"
answers 'launcher: no sums' './link run' <<END
$unusable: it or release/sums isn't there; $mended
= 1
END
program_that 127 shipped
ship "$scratch/small"
answers 'launcher: a program that ends with status 127' './link run' <<END
$other_machine
= 1
END
