# The library and its header against the crates; a part of hosts/check/run.

# memset is the only symbol that it lacks, the calls of the header are all that it has, and nothing in it can be written.
symbols() {
    nm "$library" >"$work/symbols" || return 1
    awk '$1 == "U" { print $2 }' "$work/symbols" | sort -u | diff - "$work/memset" || return 1
    awk '$2 == "T" { print $3 }' "$work/symbols" | sort | diff - "$work/calls" || return 1
    ! grep -i ' [bcdgs] ' "$work/symbols" || return 1
    size -A "$library" | awk '
        $1 ~ /^\.(data|bss|tdata|tbss|init_array|ctors)/ && $2 > 0 { print; found = 1 }
        END { exit found }'
}

names_of_kinds() {
    gcc -std=c99 -Iinclude hosts/c/tests/names.c -o "$work/names" || return 1
    "$work/names" | LC_ALL=C sort >"$work/kinds"
    hosts/c/definition.sh kinds | diff - "$work/kinds"
}

# The Rust package is held to the same file by a test of its own.
rows_to_lend() {
    gcc -std=c99 -Iinclude hosts/c/tests/rooms.c -o "$work/rooms" || return 1
    "$work/rooms" | diff hosts/c/tests/rooms.txt -
}

# The version of the header, of the cargo packages and of the newest changes is one.
one_version() {
    version=$(sed -n 's/^#define SHADER_READER_VERSION "\(.*\)"/\1/p' include/shader_reader.h)
    parts=$(sed -n 's/^#define SHADER_READER_VERSION_[A-Z]* \([0-9]*\)$/\1/p' include/shader_reader.h | paste -sd .)
    [ "$version" = "$parts" ] || { echo "$version in the header, and $parts"; return 1; }
    [ "$(sed -n '/^## /{s///p;q;}' CHANGELOG.md)" = "$version" ] || { echo "not $version in CHANGELOG.md"; return 1; }
    for manifest in hosts/*/Cargo.toml; do
        [ -f "$manifest" ] || continue
        grep -q "^version = \"$version\"" "$manifest" || { echo "not $version in $manifest"; return 1; }
    done
}

echo memset >"$work/memset"
sed -n 's/^shader_[a-z]* \(shader_[a-z_]*\)(.*/\1/p' include/shader_reader.h | sort >"$work/calls"
try "the library needs memset alone, has the seven calls, no data and no bss" symbols
try "numbers, calls and answers of the header are those of the crates" hosts/c/definition.sh
try "sizes of tables are those that are stored" rows_to_lend
try "one version everywhere" one_version
try "names of kinds are those of the definition" names_of_kinds
