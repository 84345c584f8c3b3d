# When something built need not be built again; read by scripts that have the repository's folder in $root.

# Whether this file or folder exists, and no source of a crate and no line of crates.txt was changed after it was written.
is_current() {
    [ -e "$1" ] && newer=$(find "$root/crates.txt" "$root/crates" -name out -prune -o -type f \
        \( -name crates.txt -o -name '*.rt' -o -name '*.antt' \) -newer "$1" -print) && [ -z "$newer" ]
}
