# shellcheck shell=sh disable=SC2034,SC2154
# How the script `mt` makes the page: the compiler of the proofs makes the module of `mt_page` for x86-64, a clang that stands in its
# folder of tools keeps that module, and the steps in `page/` take it to WebAssembly and into one file. Who reads this file
# has read program.sh and build.sh.

# Takes up the page as what is to be built.
use_page() {
    use_program mt_page
    program=$crate/out/mt.html
    further_sources='page jobs'
    build_own=build_page
}

# The folder of the toolchain.
kit() {
    dirname "$(dirname "$(realpath "$(command -v rt)")")"
}

# Says which tools the page's steps lack.
has_page_tools() {
    kit=$(kit)
    for tool in "$kit/toolchain/bin/clang" "$kit/toolchain/bin/llvm-ar" "$kit/bin/rattle-link" python3; do
        command -v "$tool" >/dev/null || { say "mt: page: there is no $tool, which makes the page"; return 1; }
    done
}

# The toolchain's folder of tools in the folder $1, in which clang keeps the module that it compiles, as $1/module.bc.
watch_clang() {
    mkdir -p "$1/tools/bin" && ln -s "$kit/toolchain/lib" "$1/tools/lib" && ln -s "$kit"/toolchain/bin/* "$1/tools/bin" || return 1
    rm "$1/tools/bin/clang"
    cat >"$1/tools/bin/clang" <<CLANG && chmod +x "$1/tools/bin/clang"
#!/bin/sh
for word; do
    case \$word in *.bc) cp "\$word" '$1/module.bc' || exit 1 ;; esac
done
exec '$kit/toolchain/bin/clang' "\$@"
CLANG
}

# Proves mt_page, with $2 jobs, over the libraries that stand in the crates' folders, and keeps its module in the folder $1.
keep_module() (
    set -- "$1" --jobs "$2"
    for below in $(awk -F: '$1 ~ /^mt_page( |$)/ { print $2 }' "$top/crates.txt"); do
        library=$top/crates/$below/out/rlib/$below.rlib
        [ -d "$top/crates/$below" ] && set -- "$@" -L "dependency=${library%/*}" || library=$kit/rlibs/$below.rlib
        set -- "$@" --extern "$below=$library"
    done
    folder=$1
    shift
    cd "$crate" && mkdir -p out && "$kit/bin/rattle" build --crate-name mt_page src/lib.rt --crate-type staticlib --links mt_page= \
        --extern "std=$kit/rlibs/std.rlib" -L "dependency=$kit/rlibs" "$@" --antt-project "$kit/rattle/logic/antt-project.json" \
        --logic-built "$kit/logic_built" --incremental out/incremental --backend llvm --toolchain "$folder/tools" -o "$folder/libmt_page.a"
)

# Makes the page, with $1 jobs, over libraries that are built.
build_page() (
    kit=$(kit)
    folder=$(mktemp -d) || exit 1
    trap 'rm -rf "$folder"' EXIT
    watch_clang "$folder" && keep_module "$folder" "$1" && "$top/page/link" "$kit" "$folder/module.bc" "$folder/mt.wasm" &&
        "$top/page/bundle" "$folder/mt.wasm" "$top/jobs" "$program"
)

# Writes the page, which is made first if a source has changed.
write_page() {
    use_page
    if [ -n "$unproved" ]; then
        say 'mt: page: there is no page without a proof'
        exit 1
    fi
    is_fresh || { has_page_tools && build; } || exit 1
    exec cat "$program"
}
