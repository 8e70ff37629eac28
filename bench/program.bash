# What the benchmarks of single parts share: programs whose texts stand beside their scripts, as bench/NAME/src and so on,
# each file with .txt behind its name, since only what the gate proves is a crate. Scripts source it at the top of the
# repository.

# built NAME: the path of that program, which is put into a copy of the repository as the crate coco_bench_NAME, proved
# and built there. Libraries that are built here needn't be built again. What is said meanwhile goes to the error stream.
built() {
    local copy crate=coco_bench_$1 file
    copy=$(mktemp -d)
    git ls-files -z -- crates crates.txt HANDLES | xargs -0 cp --parents -t "$copy"
    git -C "$copy" init -q
    for file in crates/*/out/rlib; do
        [ ! -d "$file" ] || cp -r --parents "$file" "$copy"
    done
    (cd "bench/$1" && find . -name '*.*.txt') | while read -r file; do
        install -D -m 644 "bench/$1/$file" "$copy/crates/$crate/${file%.txt}"
    done
    cat "bench/$1/crate.txt" >>"$copy/crates.txt"
    (cd "$copy/crates/$crate" && rt run -- </dev/null >&2) || true
    printf '%s\n' "$copy/crates/$crate/out/$crate"
    [ -x "$copy/crates/$crate/out/$crate" ]
}
