#!/bin/sh
# An experiment: the library on a Cortex-M3. It takes the LLVM module that the compiler makes of the crate kernel_c, compiles it for this
# processor, says how large it is, and plays the examples on an emulated board.
#
# Nothing of it is proved. The compiler knows one target, x86-64, with pointers and lengths of 64 bits, and what is proved is proved for
# that. Here the module gets ARM's data layout, and its C functions get lengths of 32 bits, as include/kernel.h has them there. It can be
# done because the module counts in bytes and takes no size of a pointer for granted: a slice is a pointer at byte 0 and a length at byte
# 8. Nothing but the examples shows that the meaning is kept.
#
# Needs the proof kit and a built library (make lib); for the run, Debian's gcc-arm-none-eabi, libnewlib-arm-none-eabi and
# qemu-system-arm.
set -eu
cd "$(dirname "$0")/.."
work=$PWD/target/cortex-m
rm -rf "$work"
mkdir -p "$work"

kit=$(dirname "$(rt doc)")
clang=$kit/toolchain/bin/clang
for_arm() { "$clang" --target=thumbv7m-none-eabi -mcpu=cortex-m3 -Wno-override-module "$@"; }
if ! "$clang" --print-targets | grep -q ' thumb '; then
    echo "the kit's clang cannot compile for ARM"
    exit 1
fi

# the module: a build whose clang first puts a copy of it aside. Its tools are links, which the gate refuses in the repository
tools=$(mktemp -d)
trap 'rm -rf "$tools"' EXIT
cp -rs "$kit/toolchain/." "$tools"
rm "$tools/bin/clang"
printf '#!/bin/sh\n! [ -f module.bc ] || cp module.bc "%s"\nexec "%s" "$@"\n' "$work/kernel.bc" "$clang" > "$tools/bin/clang"
chmod +x "$tools/bin/clang"
# shellcheck disable=SC2046
(cd crates/kernel_c && "$kit/bin/rattle" build --crate-name kernel_c src/lib.rt --extern "std=$kit/rlibs/std.rlib" \
    $(sed -n 's/^kernel_c staticlib://p' ../../crates.txt | sed 's,[a-z_]\+,--extern &=../&/out/rlib/&.rlib,g') \
    $(printf -- '-L dependency=%s ' ../*/out/rlib) -L "dependency=$kit/rlibs" --antt-project "$kit/rattle/logic/antt-project.json" \
    --logic-built "$kit/logic_built" --incremental out/incremental --toolchain "$tools" --backend llvm --crate-type staticlib \
    -o "$work/x86-64.a") > "$work/build.log" 2>&1

# the module as text, with ARM's layout for that of x86-64, and 32-bit lengths at the C functions
"$clang" --target=x86_64-unknown-linux-gnu -S -emit-llvm -x ir "$work/kernel.bc" -o "$work/x86-64.ll"
LAYOUT=$(: | for_arm -S -emit-llvm -x c - -o - | grep '^target') awk '
    /^target datalayout/ { print ENVIRON["LAYOUT"]; next }
    /^target triple/ { next }
    /^define .* @kernel_/ {
        widened = ""
        while (match($0, /i64 noundef %a[0-9]+/)) {
            n = substr($0, RSTART + 14, RLENGTH - 14)
            $0 = substr($0, 1, RSTART - 1) "i32 noundef %len" n substr($0, RSTART + RLENGTH)
            widened = widened "  %a" n " = zext i32 %len" n " to i64\n"
        }
        print; getline; printf "%s\n%s", $0, widened; next
    }
    /^attributes/ { gsub(/"probe-stack"="[^"]*"|"target-cpu"="[^"]*"/, "") }
    { print }' "$work/x86-64.ll" > "$work/kernel.ll"
for_arm -O2 -c -x ir "$work/kernel.ll" -o "$work/kernel.o"
size "$work/kernel.o" | awk 'END { print "the library for a Cortex-M3: " $1 " bytes of code, " $2 + $3 " of data" }'

if ! command -v arm-none-eabi-gcc > /dev/null || ! command -v qemu-system-arm > /dev/null; then
    echo "not run: there is no arm-none-eabi-gcc or no qemu-system-arm"
    exit 0
fi

# the board's memory begins at 0 with the stack's top and the place to start
printf '.section .vectors, "a"\n.word 0x400000, _start\n' > "$work/vectors.s"
for example in nine probe sheet; do
    arm-none-eabi-gcc -std=c11 -Wall -Wextra -O2 -mcpu=cortex-m3 -mthumb --specs=rdimon.specs \
        -Wl,--section-start=.vectors=0,--no-warn-execstack "$work/vectors.s" "examples/$example.c" "$work/kernel.o" -o "$work/$example"
    qemu-system-arm -M mps2-an385 -display none -semihosting-config enable=on,target=native -kernel "$work/$example" > "$work/$example.txt"
    diff "examples/$example.txt" "$work/$example.txt"
    echo "examples/$example.c: the same lines on the emulated board"
done
