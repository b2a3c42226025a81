# A part of command_lines.sh: what other tools read in the files that `elf` writes of the programs in examples/.

# The name of a tool that is installed, the first of these.
first_tool() {
    local tool
    for tool in "$@"; do
        command -v "$tool" && return
    done
    return 1
}

# The headers: an executable for RISC-V that begins at address 0, and two segments, the first of which are the words.
read_headers() {
    is_wanted "elf: headers" || return
    local reader file words
    reader=$(first_tool llvm-readelf readelf) || {
        echo "left out: elf: headers, since readelf is missing"
        return
    }
    : >"$scratch/expected"
    : >"$scratch/came"
    for file in examples/*.bril; do
        "$program" elf "$file" >"$scratch/elf" 2>/dev/null || continue
        words=$(printf '0x%06x' $(($(wc -c <"$scratch/elf") - 176)))
        echo "$file EXEC RISC-V 0x0 2 0x0000b0 $words" >>"$scratch/expected"
        "$reader" -W -h -l "$scratch/elf" 2>&1 | awk -v file="$file" '
            /^ *Type: / { type = $2 }
            /^ *Machine: / { machine = $2 }
            /^ *Entry point address: / { entry = $4 }
            /^ *LOAD / { loads++; if (loads == 1) { at = $2; size = $5 } }
            function short(number) { sub(/^0x0*/, "", number); while (length(number) < 6) number = "0" number; return "0x" number }
            END { print file, type, machine, entry, loads, short(at), short(size) }
        ' >>"$scratch/came"
    done
    tried="$reader -W -h -l"
    ends "elf: headers" "$scratch/expected" "$scratch/came"
}
read_headers

# The words: objdump writes them as `list` does, but for where a jump leads, which it writes as an address in hexadecimal.
# Lines are compared as their mnemonic and registers with all other numbers in decimal.
read_words() {
    is_wanted "elf: words" || return
    local file
    command -v objdump >/dev/null && objdump -i | grep -q riscv || {
        echo "left out: elf: words, since no objdump for RISC-V is installed"
        return
    }
    : >"$scratch/expected"
    : >"$scratch/came"
    for file in examples/*.bril; do
        "$program" elf "$file" >"$scratch/elf" 2>/dev/null || continue
        tail -c +177 "$scratch/elf" >"$scratch/words"
        "$program" list "$file" | awk '{
            gsub(/[(),]/, " "); $1 = $1
            if ($1 ~ /^(jal|beq|bne|blt|bge|bltu|bgeu)$/) $NF = (NR - 1) * 4 + $NF
            print
        }' >>"$scratch/expected"
        objdump -D -b binary -m riscv:rv64 -M no-aliases,numeric "$scratch/words" | awk '
            function number(text, n, i) {
                n = 0
                for (i = 3; i <= length(text); i++) n = 16 * n + index("0123456789abcdef", substr(text, i, 1)) - 1
                return n
            }
            /^ *[0-9a-f]+:\t/ {
                sub(/^[^\t]*\t[^\t]*\t/, ""); sub(/ *[#<].*$/, ""); gsub(/[(),\t]/, " "); $1 = $1
                for (i = 2; i <= NF; i++) if ($i ~ /^0x/) $i = number($i)
                print
            }
        ' >>"$scratch/came"
    done
    tried="objdump -D -b binary -m riscv:rv64 -M no-aliases,numeric"
    ends "elf: words" "$scratch/expected" "$scratch/came"
}
read_words

# The same by the disassembler of LLVM, which writes where a jump leads as `list` does.
disassemble() {
    is_wanted "elf: words by llvm-mc" || return
    local file
    command -v llvm-mc >/dev/null || {
        echo "left out: elf: words by llvm-mc, which isn't installed"
        return
    }
    : >"$scratch/expected"
    : >"$scratch/came"
    for file in examples/*.bril; do
        "$program" elf "$file" >"$scratch/elf" 2>/dev/null || continue
        "$program" list "$file" >>"$scratch/expected"
        tail -c +177 "$scratch/elf" | od -An -v -tx1 | sed 's/ / 0x/g' |
            llvm-mc --disassemble -triple=riscv64 -mattr=+m -M no-aliases -M numeric 2>&1 |
            awk '/^\t/ && !/^\t\./ { gsub(/\t/, " "); $1 = $1; print }' |
            sed -E 's/^jalr (x[0-9]+), (-?[0-9]+)\((x[0-9]+)\)$/jalr \1, \3, \2/' >>"$scratch/came"
    done
    tried="llvm-mc --disassemble -triple=riscv64 -mattr=+m -M no-aliases -M numeric"
    ends "elf: words by llvm-mc" "$scratch/expected" "$scratch/came"
}
disassemble
