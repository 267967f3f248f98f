# shellcheck shell=bash
# What tests/machines/run and tools/run-everywhere share. Sourced by bash, at the top of the repository.
here=tests/machines
portable=target/portable

find_kit() {
    local rt
    rt=$(command -v rt) || return 1
    kit=$(dirname "$(dirname "$(readlink -f "$rt")")")/toolchain/bin
    [ -x "$kit/clang" ] && [ -x "$kit/ld.lld" ] && [ -x "$kit/llvm-ar" ]
}

# C for a machine without a C library, by the kit's clang alone.
compile_bare() { # TARGET INCLUDE SOURCE OBJECT [FLAG...]
    local target=$1 include=$2 source=$3 object=$4
    "$kit/clang" --no-default-config --target="$target" -DBARE -ffreestanding -fno-builtin -fno-pic -O2 -std=c11 -Wall -Wextra -Werror \
        -I"$include" -isystem $here/bare "${@:5}" -c "$source" -o "$object"
}

# The driver as a 32-bit program of this machine, by the kit's clang and ld.lld alone.
link_driver32() { # INCLUDE PROGRAM [FLAG...]
    local target=i686-unknown-linux-gnu source
    for source in driver linux32 bare/routines; do
        compile_bare $target "$1" $here/$source.c "$2.${source#*/}.o" "${@:3}" || return 1
    done
    "$kit/ld.lld" -m elf_i386 -static "$2.driver.o" "$2.linux32.o" "$2.routines.o" $portable/$target/libhemdroas.a -o "$2"
}

# The routines that a library asks of its host, in one line.
asks() { # TARGET
    readelf -sW $portable/"$1"/libhemdroas.a 2>/dev/null |
        awk '$7 == "UND" && $8 != "" && $8 != "_GLOBAL_OFFSET_TABLE_" { print $8 }' | LC_ALL=C sort -u | paste -sd ' '
}

# Bytes of code and constants.
code_bytes() { # FILE
    local sum=0 size
    for size in $(readelf -SW "$1" 2>/dev/null | sed 's/^ *\[ *[0-9]*\] *//' |
        awk '$2 == "PROGBITS" && $7 ~ /A/ && $1 !~ /^\.(eh_frame|ARM\.ex)/ { print $5 }'); do sum=$((sum + 16#$size)); done
    echo $sum
}

# The same of a target's library, or the whole module for wasm32.
flash() { # TARGET
    if [ -f $portable/"$1"/hemdroas.wasm ]; then wc -c <$portable/"$1"/hemdroas.wasm; else code_bytes $portable/"$1"/libhemdroas.a; fi
}
