# What ./hybridgc, scripts/build-crate, ./dist and examples/check share. A script sets $root, the top of the repository, and reads this
# file by `.`.
program=$root/crates/hybridgc/out/hybridgc

# The library that only the program needs of those that are built here. It is proved in one run with the program, and is not built.
inside=hg_run

# The library of a crate, as scripts/build-crate builds it.
library_of() {
    echo "$root/crates/$1/out/library/$1.rlib"
}

# The libraries that a crate names: the toolchain's, and those of this repository. Those of the program are what it and `inside` name.
named_by() {
    awk -v name="$1" -v inside="$inside" '
        { sub(/#.*/, "") }
        $1 == name ":" || (name == "hybridgc" && $1 == inside ":") {
            for (i = 2; i <= NF; i++) if ($i != inside && !($i in seen)) { seen[$i]; print $i }
        }' "$root/crates.txt"
}

# Prints the crates of the program, a line each: its name and the crates of this repository that it depends on, which come
# before it. Test crates are not among them, since nothing depends on one, and `inside` is a part of the last one.
crates_of_program() {
    awk -v inside="$inside" '
        function visit(name,  i, n, deps, line) {
            if (name in seen) return
            seen[name]
            n = split(below[name], deps, " ")
            line = name
            for (i = 1; i <= n; i++) if (deps[i] in below) { visit(deps[i]); line = line " " deps[i] }
            print line
        }
        { sub(/#.*/, "") }
        NF { name = $1; sub(/:$/, "", name); $1 = ""; below[name] = $0 }
        END {
            n = split(below["hybridgc"], deps, " ")
            below["hybridgc"] = below[inside]
            for (i = 1; i <= n; i++) if (deps[i] != inside) below["hybridgc"] = below["hybridgc"] " " deps[i]
            visit("hybridgc")
        }' "$root/crates.txt"
}

# Whether the file is there, and newer than each file that the proofs of these crates read: is_newer FILE CRATE..
is_newer() {
    [ -e "$1" ] || return 1
    file=$1
    shift
    folders=$(echo "$@" | sed 's|[^ ][^ ]*|&/src &/specs &/proofs|g')
    changed=$(cd "$root/crates" && find $folders -newer "$file" 2>/dev/null | head -n 1)
    [ -z "$changed" ]
}

# Whether the program is there, and newer than the list of crates and the files of its crates.
is_built() {
    [ -x "$program" ] && [ -z "$(find "$root/crates.txt" -newer "$program")" ] || return 1
    is_newer "$program" "$inside" $(crates_of_program | cut -d ' ' -f 1)
}

# Prints what the program prints for --help after its usage: the lines of its source.
help_page() {
    sed -n '/^const HELP/,/^";/p' "$root/crates/hg_reason/src/help.rt" | sed '1d; $d; s/\\\\/\\/g'
}
