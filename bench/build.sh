# bench/run reads this file. It defines functions that prove, build and link both libraries. They need these variables:
# bench: this folder; top: the top of the checkout; room: the working folder.

# take_sources STATE: copies the sources of a state into $room/sources/STATE. The state `now` is the checkout as its files are. The
# state `before` is BASE, a folder with another checkout or a revision of git.
take_sources() {
    local to=$room/sources/$1 from=$top
    rm -rf "$to"
    mkdir -p "$to"
    if [ "$1" = before ] && [ ! -d "$BASE" ]; then
        git -C "$top" archive "$BASE" crates crates.txt HANDLES c/heap.c | tar xf - -C "$to"
        return
    fi
    [ "$1" = now ] || from=$BASE
    (cd "$from" && git ls-files -z -co --exclude-standard -- crates crates.txt HANDLES c/heap.c |
        while IFS= read -r -d '' file; do [ ! -f "$file" ] || printf '%s\0' "$file"; done |
        tar cf - --null -T -) | tar xf - -C "$to"
}

# copy_state STATE: puts the sources of a state into the project $room/STATE, which keeps what was proved there.
copy_state() {
    local project=$room/$1
    mkdir -p "$project/crates"
    find "$project/crates" -mindepth 2 -maxdepth 2 ! -name out -exec rm -rf {} +
    tar cf - -C "$room/sources/$1" . | tar xf - -C "$project"
    add_exports "$project"
}

# add_exports PROJECT: adds the crate of the exports. Lines that end in `//@ into` stay only where the library has `encode_into`.
add_exports() {
    local crate=$1/crates/rs_bench file text
    mkdir -p "$crate/src" "$crate/c"
    for file in "$bench"/exports/*.rt.txt; do
        text='s, *//@ into$,,'
        grep -q 'encode_into' "$1/crates/reed_solomon_simd/src/lib.rt" || text='/\/\/@ into$/d'
        sed "$text" "$file" > "$crate/src/$(basename "$file" .txt)"
    done
    printf '\nrs_bench staticlib: reed_solomon_simd\n' >> "$1/crates.txt"
}

# set_lanes STATE BUILD: gives rs_c the vectors of a build, and what was proved of it with these vectors. What is proved of the plain
# build is the beginning of the other one.
set_lanes() {
    local crate=$room/$1/crates/rs_c kept=$room/$1/proved
    mkdir -p "$kept"
    if [ ! -d "$kept/$2" ] && [ -d "$kept/plain" ]; then
        cp -a "$kept/plain" "$kept/$2"
    fi
    if [ -d "$kept/$2" ]; then
        rm -rf "$crate/out"
        mv "$kept/$2" "$crate/out"
    fi
    if [ "$2" = v3 ]; then
        sed -i 's/^pub type Lanes = u8x16;$/pub type Lanes = u8x32;/' "$crate/src/lanes.rt"
        grep -q '^pub type Lanes = u8x32;$' "$crate/src/lanes.rt" || stop "no width of vectors to change in crates/rs_c/src/lanes.rt"
    fi
}

# proved LOG CRATE WORDS..: proves and builds the static library of a crate
proved() {
    local log=$1 crate=$2
    shift 2
    (cd "$crate" && RT_ALLOW_C=rs_bench rt lib --jobs "$jobs" "$@") > "$log" 2>&1 || { tail -n 25 "$log" >&2; exit 1; }
}

# library STATE BUILD: makes $room/NAME.o from both static libraries of a build. All names that it defines begin with NAME_.
library() {
    local state=$1 build=$2 name=$2 project=$room/$1 stamp flags=()
    [ "$state" = now ] || name=${build}_before
    [ "$build" = plain ] || flags=(--cpu=x86-64-v3)
    linked+=("$name")
    objects+=("$room/$name.o")
    stamp=$({ cd "$room/sources/$state" && find . -type f -print0 | sort -z | xargs -0 sha256sum
        cat "$bench"/exports/* "$bench/build.sh" && rt version; } | sha256sum)
    if [ -f "$room/$name.o" ] && [ "$(cat "$room/$name.stamp" 2> /dev/null)" = "$stamp" ]; then
        return
    fi
    echo "bench: proving and building $name (log: $room/$name.log)" >&2
    copy_state "$state"
    set_lanes "$state" "$build"
    proved "$room/$name.log" "$project/crates/rs_c" "${flags[@]}"
    proved "$room/$name.log" "$project/crates/rs_bench" "${flags[@]}"
    cc -std=c11 -O2 -fPIC -c -o "$room/heap.o" "$project/c/heap.c"
    object "$room/$name.c.o" "${name}_" "$project/crates/rs_c/out/librs_c.a" "$room/heap.o" \
        rs_tables_make rs_encode rs_decode rs_encode_shards rs_decode_shards rs_verify rs_reconstruct rs_update
    object "$room/$name.rattle.o" "${name}_" "$project/crates/rs_bench/out/librs_bench.a" "$room/heap.o" \
        rs_bench_encode rs_bench_decode rs_bench_tables
    mv "$project/crates/rs_c/out" "$project/proved/$build"
    ld -r -o "$room/$name.o" "$room/$name.c.o" "$room/$name.rattle.o"
    echo "$stamp" > "$room/$name.stamp"
}

# object OBJECT PREFIX LIBRARY HEAP CALL..: makes one object of a static library and its allocator. It defines only the calls. All
# libraries have the allocator of the library for C, whose memory begins at multiples of 64.
object() {
    local out=$1 prefix=$2 archive=$3 heap=$4 call renames=() keeps=()
    shift 4
    for call; do
        renames+=(--redefine-sym "$call=$prefix$call")
        keeps+=("--keep-global-symbol=$prefix$call")
    done
    ld -r -o "$out.all" --whole-archive "$archive" --no-whole-archive "$heap"
    objcopy "${renames[@]}" "$out.all" "$out.named"
    objcopy "${keeps[@]}" "$out.named" "$out"
    rm "$out.all" "$out.named"
}

# dependency: prints the line of the manifest that names the crate
dependency() {
    if [ -z "${CRATE:-}" ]; then
        echo 'reed-solomon-simd = "=3.1.0"'
        return
    fi
    local folder
    folder=$(cd "$CRATE" && pwd)
    if [ ! -f "$folder/Cargo.toml" ]; then
        "$bench/sources/lay-out" "$folder" "$room/sources/rust"
        folder=$room/sources/rust/crate
    fi
    echo "reed-solomon-simd = { path = \"$folder\" }"
}

# program: builds the program with the libraries in `linked` and `objects`
program() {
    local line words
    line=$(dependency)
    if printf 'int main(void) { return 0; }\n' | cc -xc -include isa-l.h -o "$room/has" - -lisal 2> /dev/null; then
        linked+=(isal)
        objects+=(-lisal)
    fi
    rm -rf "$room/rust"
    cp -Rp "$bench/rust" "$room/rust"
    chmod -R u+w "$room/rust"
    sed "s|^reed-solomon-simd = .*|$line|" "$bench/rust/Cargo.toml" > "$room/rust/Cargo.toml"
    words=(--release --quiet "-j$jobs")
    [ -z "${CRATE:-}" ] || words+=(--offline)
    (cd "$room/rust" && RS_BENCH_LINK="${objects[*]}" RS_BENCH_LINKED="${linked[*]}" CARGO_TARGET_DIR=$room/target cargo build "${words[@]}")
}

# about: prints how figures are made: the libraries, the machine and the day
about() {
    local changed
    changed=$(git -C "$top" status --porcelain -- crates crates.txt c | wc -l)
    echo "Library: commit $(git -C "$top" rev-parse --short HEAD), $changed files changed; $(rt version)"
    [ -z "${BASE:-}" ] || echo "Library before: commit $(base_commit)"
    echo "Crate: reed-solomon-simd 3.1.0 from a $([ -n "${CRATE:-}" ] && echo folder || echo registry), built by $(rustc --version) as cargo does by default"
    echo "Machine: $(sed -n 's/^model name[^:]*: //p' /proc/cpuinfo | head -n 1), $(nproc) processors, load $(cut -d' ' -f1 /proc/loadavg) at the start"
    echo "Date: $(date -u +%Y-%m-%d)"
}

# base_commit: prints the commit of BASE
base_commit() {
    if [ -d "$BASE" ]; then
        git -C "$BASE" rev-parse --short HEAD
    else
        git -C "$top" rev-parse --short "$BASE"
    fi
}
