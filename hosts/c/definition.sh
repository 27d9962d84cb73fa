#!/bin/sh
# Holds include/shader_reader.h to the definition (crates/definition) and to the exports (crates/shader_reader_c): names,
# numbers, columns, calls, answers. Prints what differs, and how much was compared.
#
#     definition.sh          compares
#     definition.sh kinds    prints the definition's kinds, as the test `names` does
set -eu
export LC_ALL=C
top=$(cd "$(dirname "$0")/../.." && pwd)
specs=$top/crates/definition/specs
header=$top/include/shader_reader.h

# The fields of a record of numbers: record_of FILE RECORD FRONT [BACK] prints FRONT NAME BACK and the number of each.
record_of() {
    tr '\n' ' ' <"$specs/$1" | awk -v record="$2" -v front="$3" -v back="${4:-}" '{
        at = index($0, " " record " = record {")
        if (!at) exit 1
        fields = substr($0, at + length(record) + 12)
        sub(/}.*/, "", fields)
        n = split(fields, field, ";")
        for (i = 1; i <= n; i++) if (split(field[i], part, "=") == 2) {
            gsub(/[ {]/, "", part[1])
            print front toupper(part[1]) back, part[2] + 0
        }
    }'
}

# One number: number_of FILE NAME AS.
number_of() {
    sed -n "s/^$2 = \([0-9_]*\)\$/\1/p" "$specs/$1" | tr -d _ | sed "s/^/$3 /"
}

# The columns of a row, from the function that lists its numbers: columns_of FILE FUNCTION FRONT. A column is named by
# its field; the two expected kinds, and a token's range, which has no field, by what they are.
columns_of() {
    tr '\n' ' ' <"$specs/$1" | awk -v function_="$2" -v front="$3" '{
        at = match($0, function_ " [^=]*\\([a-z] ∷ [a-z]+\\) =")
        row = substr($0, at + RLENGTH)
        row = substr(row, 1, index(row, function_) - 1)
        sub(/.* in /, "", row)
        n = split(row, item, "∷") - 1
        for (i = 1; i <= n; i++) print front name(item[i]), i - 1
    }
    function name(text) {
        if (text ~ /expected 1/) return "SECOND_EXPECTED"
        if (text ~ /^ *at *$/) return "START"
        if (text ~ /^ *\(at \+/) return "END"
        sub(/.*\./, "", text); sub(/ .*/, "", text)
        return toupper(text)
    }'
}

defined_numbers() {
    record_of SyntaxKind.antt Kind SHADER_KIND_
    record_of Calls.antt Refusal SHADER_REFUSAL_
    number_of Calls.antt 'refusal \[\]' SHADER_REFUSAL_NONE
    number_of Calls.antt longest_source SHADER_SOURCE_LIMIT
    number_of Calls.antt most_concats SHADER_CONCAT_LIMIT
    record_of Error.antt ErrorKind SHADER_SORT_
    record_of Tree.antt Form SHADER_FORM_
    record_of Tree.antt Width SHADER_ _NUMBERS
    columns_of Tree.antt entry_numbers SHADER_ENTRY_
    columns_of Error.antt error_numbers SHADER_ERROR_
    columns_of Glue.antt token_numbers SHADER_TOKEN_
}

# All numbers of the header but its version and its stack, which the definition doesn't know.
header_numbers() {
    grep -o 'SHADER_[A-Z0-9_]* = [0-9]*' "$header" | sed 's/ = / /'
    sed -n 's/^#define \(SHADER_[A-Z0-9_]* [0-9][0-9]*\)$/\1/p' "$header" | grep -v 'READER_VERSION\|STACK_BYTES'
}

# The exports, and the calls of the header: name, type of the answer, types of the arguments.
exported_calls() {
    tr '\n' ' ' <"$top/crates/shader_reader_c/src/lib.rt" | awk '{
        while (match($0, /pub extern "C" fn [a-z_]+\([^)]*\) -> [A-Za-z]+/)) {
            one = substr($0, RSTART + 18, RLENGTH - 18); $0 = substr($0, RSTART + RLENGTH)
            open = index(one, "("); close_ = index(one, ")")
            line = substr(one, 1, open - 1) " shader_" tolower(substr(one, close_ + 5))
            n = split(substr(one, open + 1, close_ - open - 1), argument, ",")
            for (i = 1; i <= n; i++) if (sub(/.*: /, "", argument[i])) line = line " " type(argument[i])
            print line
        }
    }
    function type(text) {
        if (text !~ /^&/) return text
        return (text ~ /^&mut/ ? "" : "const ") (text ~ /u8/ ? "u8" : "u32") "* size_t"
    }'
}

header_calls() {
    tr '\n' ' ' <"$header" | awk '{
        while (match($0, /shader_[a-z]+ shader_[a-z_]+\([^)]*\);/)) {
            one = substr($0, RSTART, RLENGTH - 2); $0 = substr($0, RSTART + RLENGTH)
            split(one, part, /[ (]/)
            line = part[2] " " part[1]
            n = split(substr(one, index(one, "(") + 1), argument, ",")
            for (i = 1; i <= n; i++) {
                sub(/[a-z_]+$/, "", argument[i])
                line = line " " type(argument[i])
            }
            print line
        }
    }
    function type(text) {
        sub(/uint8_t/, "u8", text); sub(/uint32_t/, "u32", text)
        sub(/ *\*/, "*", text); sub(/^ +/, "", text); sub(/ +$/, "", text)
        return text
    }'
}

# The fields of each answer, in the exports and in the header.
exported_answers() {
    for name in $(exported_calls | awk '{ print $2 }' | sort -u); do
        cat "$top"/crates/*/src/*.rt | awk -v name="$name" '
            /^pub struct / { here = "shader_" tolower($3) == name; if (here) line = name }
            here && /^    pub [a-z]+: u32,/ { sub(/:/, "", $2); line = line " " $2 }
            here && /^}/ { print line; exit }'
    done
}

header_answers() {
    for name in $(header_calls | awk '{ print $2 }' | sort -u); do
        sed -n "s/^typedef struct { uint32_t \(.*\); } $name;/$name \1/p" "$header" | tr -d ,
    done
}

if [ "${1:-}" = kinds ]; then
    record_of SyntaxKind.antt Kind '' | sort
    exit
fi
work=$(mktemp -d)
trap 'rm -rf "$work"' EXIT
status=0
for what in numbers calls answers; do
    case $what in numbers) from=defined_$what ;; *) from=exported_$what ;; esac
    $from | sort >"$work/definition"
    header_$what | sort >"$work/header"
    [ -s "$work/definition" ] || { echo "no $what were found in the crates"; status=1; }
    diff "$work/definition" "$work/header" || { echo "$what: the header differs from the crates (<)"; status=1; }
    printf '%s %s\n' "$(wc -l <"$work/definition")" "$what"
done
exit $status
