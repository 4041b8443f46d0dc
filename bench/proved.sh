# What the benches share that prove and build a small program over a copy of the crates. Read by `.`, not run.
top=$(cd "$(dirname "$0")/.." && pwd -P) || exit 1

# Names the folder of a bench: that of its name below the one that is given, which stays, or else one that is deleted.
take_folder() { # NAME [FOLDER]
    if [ -n "$2" ]; then
        mkdir -p "$2/$1" || exit 1
        folder=$(cd "$2/$1" && pwd -P) || exit 1
        if [ "$folder" = "$top" ]; then
            echo "The copy would overwrite the repository: name another folder."
            exit 1
        fi
    else
        folder=$(mktemp -d) || exit 1
        trap 'rm -rf "$folder"' EXIT
        trap 'exit 1' INT TERM
    fi
}

# Copies what a proof reads of a crate, and leaves what the copy has of earlier proofs.
copy_crate() {
    copy=$folder/crates/${1##*/}
    mkdir -p "$copy" || return 1
    for part in src specs proofs; do
        rm -rf "${copy:?}/$part" || return 1
        [ ! -d "$1/$part" ] || cp -R "$1/$part" "$copy/$part" || return 1
    done
}

# Copies all crates, adds the program of this name, whose text is SOURCE, and enters its folder.
add_program() { # NAME SOURCE CRATES
    if ! command -v rt > /dev/null 2>&1; then
        echo "The toolchain's rt isn't on the path."
        exit 0
    fi
    for crate in "$top"/crates/*; do
        copy_crate "$crate" || exit 1
    done
    mkdir -p "$folder/crates/$1/src" || exit 1
    cp "$2" "$folder/crates/$1/src/main.rt" || exit 1
    {
        cat "$top/crates.txt"
        echo
        echo "$1: $3"
    } > "$folder/crates.txt" || exit 1
    cd "$folder/crates/$1" || exit 1
}
