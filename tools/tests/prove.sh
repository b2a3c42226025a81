# Cases of tools/test: what tools/prove says, builds and ships, in the small repository of launcher.sh, with a toolchain that
# proves whatever it is asked.

mkdir -p "$scratch/toolchain" "$small/crates/lower/src" "$small/crates/roolvist/must-fail"
echo '// nothing' >"$small/crates/lower/src/lib.rt"
echo 'Handles allowed: none.' >"$small/HANDLES"
echo '## 1.2.4' >"$small/CHANGELOG.md"
rm -rf "$small/release"
cat >"$scratch/toolchain/rt" <<'END'
#!/bin/sh
[ "$1" != version ] || { echo "${RT_VERSION:-kit 1}"; exit; }
[ ! -e crates/roolvist/must-fail ] || echo "edits were copied"
echo "rt: lower is kept: as before"
echo "rt: roolvist: its tests are proved"
echo "rt: roolvist proved"
mkdir crates/roolvist/out
cp "$scratch/small" crates/roolvist/out/roolvist
eval "${RT_MEANWHILE-}"
exit "${RT_STATUS:-0}"
END
chmod 755 "$scratch/toolchain/rt"
export scratch small

# What it prints until it compares, where nothing fails.
proved="proving the 2 crates of the program, from nothing that this machine hasn't kept
proved 2 of 2: roolvist
all 2 crates are proved, 1 of them by earlier runs on this machine
built crates/roolvist/out/roolvist, which ./roolvist runs from now on"

proves() {
    answers "prove: $1" "PATH=\$scratch/toolchain:\$PATH; $2"
}

program_that 64 proved
proves 'nothing is shipped' '"$small/tools/prove" && ./link run' <<END
$proved
no program is shipped, so nothing is compared
proved: run
= 7
END
proves 'the program is shipped' '"$small/tools/prove" --ship && ls "$small/release" && ./link --version' <<END
$proved
release/ has the program that was proved here, version 1.2.4
the shipped program is, byte for byte, the one that was proved here
roolvist-x86_64-linux.gz
sums
roolvist 1.2.4
= 0
END
# What was shipped runs where nothing is built.
proves 'the shipped program is the one that was proved' 'rm -r "$small/crates/roolvist/out"; ./link run; "$small/tools/prove"' <<END
proved: run
$proved
the shipped program is, byte for byte, the one that was proved here
= 0
END
proves 'another toolchain' 'RT_VERSION="kit 2" "$small/tools/prove"' <<END
$proved
the shipped program was built by another toolchain (..), so nothing is compared
= 0
END
proves 'a changed source' 'echo "// more" >>"$small/crates/roolvist/src/main.rt"; "$small/tools/prove"' <<END
$proved
the shipped program was built from other sources, so nothing is compared
= 0
END
proves 'a change of proofs alone ships the same file' \
    'cd "$small/release"; ls -i *.gz >"$scratch/inode"; ../tools/prove --ship; ls -i *.gz | cmp - "$scratch/inode"' <<END
$proved
release/ has the program that was proved here, version 1.2.4
the shipped program is, byte for byte, the one that was proved here
= 0
END
program_that 64 otherwise
proves 'another program from the same sources' '"$small/tools/prove" 2>&1 | cut -d : -f 1,2' <<END
$proved
tools/prove: the shipped program differs from the one that was proved here, though the sources and the toolchain are the same
= 0
END
proves 'a source that changes meanwhile' \
    'RT_MEANWHILE="echo more >>\"\$small/crates/roolvist/src/main.rt\"" "$small/tools/prove"' <<END
$(printf '%s' "$proved" | sed '$d')
tools/prove: a source changed meanwhile, so what was proved isn't what stands here: run it again
= 1
END
proves 'a proof that fails' 'RT_STATUS=1 "$small/tools/prove" 2>&1 | sed "s/rt said.*/.../"' <<END
$(printf '%s' "$proved" | head -n 2)
tools/prove: the program is not proved; what ...
= 0
END
