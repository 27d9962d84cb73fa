# The papers: what they link is there, and so is the code that they name; a part of hosts/check/run.

links() {
    find . -name '*.md' ! -path './build/*' ! -path './crates/*/out/*' >"$work/papers"
    while read -r paper; do
        for link in $(grep -o '\](\([^)# ]*\)' "$paper" | sed 's/^](//'); do
            case $link in http*) continue ;; esac
            [ -e "$(dirname "$paper")/$link" ] || echo "$paper: $link is not there"
        done
    done <"$work/papers" >"$work/broken"
    ! grep . "$work/broken"
}

# Parts of a paper that are linked: FILE#PART, PART made of a heading as on GitHub.
parts() {
    for paper in README.md docs/*.md; do
        for link in $(grep -o '\]([^)# ]*#[^)]*' "$paper" | sed 's/^](//'); do
            file=${link%%#*}
            file=${file:+$(dirname "$paper")/$file}
            sed -n 's/^##* //p' "${file:-$paper}" | tr A-Z a-z | sed -e 's/[^-a-z0-9 _]//g' -e 's/ /-/g' >"$work/headings"
            grep -qx "${link#*#}" "$work/headings" || echo "$paper: $link is no part"
        done
    done >"$work/broken"
    ! grep . "$work/broken"
}

# Names of code: `crate::module::name`, `crate::name`, `crate::Type::method`, which may stand in any file of the crate; not those of DESIGN-PASS.md and
# LOOK-BACK.md, which have old names beside the new.
names() {
    for name in $(find docs -maxdepth 1 -name '*.md' ! -name DESIGN-PASS.md ! -name LOOK-BACK.md -exec grep -oh '`[a-z_]*::[A-Za-z_:]*`' {} + | tr -d '`' | sort -u); do
        crate=${name%%::*} last=${name##*::} rest=${name#*::}
        [ -d "crates/$crate/src" ] || continue
        [ ! -f "crates/$crate/src/$last.rt" ] || continue
        from=crates/$crate/src/${rest%%::*}.rt
        [ -f "$from" ] || from=crates/$crate/src/lib.rt
        case $rest in [A-Z]*::*) from=crates/$crate/src ;; esac
        grep -rqE "\\<(fn|struct|const|enum|type) $last\\>|^    $last [{]" "$from" || echo "$name is not in $from"
    done >"$work/broken"
    ! grep . "$work/broken"
}

try "papers: their links lead somewhere" links
try "papers: so do links to a part" parts
try "papers: the code that they name is there" names
