#!/bin/bash
# Builds the static library of the crate ecma_c without a proof, and prints its path: out/ecma_c-CHECKSUM.a. It is kept as long as the sources of the
# crates are the same. A build takes two minutes; it needs rt.
#
#     tests/unproved_library.sh [--kept]
#
# With --kept nothing is built: the status is 1 where no build is kept.
#
# rt builds programs alone without a proof. So a copy of the crates is made in which ecma_c is a program that calls each of its functions; and in the module that
# tests/unproved.sh builds of it, these functions get the names that C knows. What breaks a `requires` stops the process. Status 3 where there is no library.
top=$(cd "$(dirname "$0")/.." && pwd)
target=x86_64-unknown-linux-gnu

# A program that calls each function, in place of the library's root.
write_main() {
    cat "$top/crates/ecma_c/src/lib.rt"
    cat <<'END'

fn main(rt: HostRuntime) {
    let options = EcmaOptions {
        goal: 0,
        levels: 0,
        extras: 0,
        most: 0,
        width: 0,
        indent: 0,
        commas: 0,
    };
    let mut outcome = outcome::EcmaOutcome::of(0);
    let mut room = [0u8; 64];
    let _ = ecma_version(&mut room);
END
    sed -n 's/^pub extern "C" fn \(ecma_[a-uw-z][a-z]*\)($/    \1(rt.alloc(), b"", \&options, \&mut room, \&mut outcome);/p' "$top/crates/ecma_c/src/lib.rt"
    echo '}'
}

# The module of the program, with the names of the library, as the file $1.
rename_functions() {
    "$kit/toolchain/bin/clang" --target=$target -O0 -Xclang -disable-llvm-passes -S -emit-llvm -x ir "$room/module.bc" -o "$room/module.ll" &&
        sed -E 's/^define internal ([^@]*)@"ecma_c::(ecma_\w+)"/define \1@\2/; s/@"ecma_c::(ecma_\w+)"/@\1/g; s/^define i32 @main\(/define internal i32 @unused_main(/' \
            "$room/module.ll" >"$1"
}

library=$top/out/ecma_c-$("$top/tests/unproved.sh" --checksum).a
if [ ! -f "$library" ]; then
    [ "${1-}" = --kept ] && exit 1
    kit=$(dirname "$(rt doc)")
    mkdir -p "$top/out" && room=$(mktemp -d "$top/out/building-XXXXXX") || exit 3
    trap 'rm -rf "$room"' EXIT
    mkdir "$room/copy" && tar -C "$top" --exclude=out -cf - crates | tar -C "$room/copy" -xf - &&
        sed 's/^ecma_c staticlib:/ecma_c:/' "$top/crates.txt" >"$room/copy/crates.txt" &&
        rm "$room/copy/crates/ecma_c/src/lib.rt" && write_main >"$room/copy/crates/ecma_c/src/main.rt" &&
        "$top/tests/unproved.sh" --module "$room/module.bc" "$room/copy/crates/ecma_c" && rename_functions "$room/library.ll" &&
        "$kit/toolchain/bin/clang" --target=$target --sysroot="$kit/toolchain" --no-default-config -fPIC -ffunction-sections -fdata-sections -O2 \
            -c -x ir "$room/library.ll" -o "$room/ecma_c.o" &&
        "$kit/toolchain/bin/llvm-ar" rcs "$room/libecma_c.a" "$room/ecma_c.o" || exit 3
    rm -f "$top/out/ecma_c"-*.a
    mv "$room/libecma_c.a" "$library"
fi
echo "$library"
