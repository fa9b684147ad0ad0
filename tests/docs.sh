#!/bin/sh
# Holds the documents against the repository; wants no compiler. Wrong is:
# - a line of an *.md above 100 characters; table rows, fenced code and a link at the line's end aside;
# - a line of an *.antt above 132 characters;
# - a relative link of an *.md that leads nowhere;
# - in docs/PROMISES.md, MODULE.md, LOUNGE.md and DECISIONS.md a path in backticks that is not there, below crates/ or
#   here, or a name behind it, `path: name, name`, that the file does not define. In a section with a line
#   "Definitions: `path`" each name in backticks is one of that file;
# - a place in a block that include/sign.h names and the table of docs/HOST.md does not have;
# - a crate that README.md's table and crates.txt do not both have;
# - in docs/PROMISES.md how many wrong programs there are of each kind, where it is not so;
# - there, in the paragraph "Never run as compiled:", a function that a program runs, or one missing that none runs;
# - in any file a path of somebody's machine.
# shellcheck disable=SC2016,SC2086
set -eu
cd "$(dirname "$0")/.."
export LC_ALL=C
work=$(mktemp -d)
trap 'rm -rf "$work"' EXIT

# The files that are tracked or about to be; where there is no git, all but what is built.
{ git ls-files -co --exclude-standard 2>/dev/null || find . -type f ! -path './target/*' ! -path './.git/*'; } |
    while read -r file; do if [ -f "$file" ]; then echo "${file#./}"; fi; done >"$work/files"
grep '\.md$' "$work/files" >"$work/pages"

# on_pages AWK-PROGRAM, over the pages on standard input, without their fenced code; at() is the place.
on_pages() {
    while read -r page; do
        # each character as one byte: the others of a character in UTF-8 are dropped
        tr -d '\200-\277' <"$page" | awk -v page="$page" '
            function at() { return page ":" NR }
            /^ *```/ { code = !code; next }
            code { next }
            '"$1"
    done
}

long_lines() {
    on_pages '
        /^\|/ || length <= 100 { next }
        substr($0, 101) ~ / / || $NF !~ /\]\(|:\/\// { print at() ": " length($0) " columns" }' <"$work/pages"
}

long_proofs() {
    grep '\.antt$' "$work/files" | while read -r file; do
        tr -d '\200-\277' <"$file" | awk -v file="$file" 'length > 132 { print file ":" NR ": " length($0) " columns" }'
    done
}

# Each link as: place target
links() {
    on_pages '{
        rest = $0
        while (match(rest, /\]\([^)]*\)/)) {
            print at(), substr(rest, RSTART + 2, RLENGTH - 3)
            rest = substr(rest, RSTART + RLENGTH)
        }
    }' <"$work/pages"
}

dead_links() {
    while read -r place target; do
        case $target in *://* | mailto:* | '#'*) continue ;; esac
        [ -e "$(dirname "$place")/${target%%#*}" ] || echo "$place: no $target"
    done <"$work/links"
}

# Each reference as: place path name, or place path where no name is given
referring='docs/PROMISES.md docs/MODULE.md docs/LOUNGE.md docs/DECISIONS.md'
references() {
    printf '%s\n' $referring | on_pages '
        /^#/ { section = "" }
        {
            n = split($0, part, "`")
            if (n > 0 && n % 2 == 0) print at(), "OPEN"
            for (i = 2; i <= n; i += 2) {
                path = part[i]
                names = sub(/: .*/, "", path) ? substr(part[i], length(path) + 3) : ""
                if (path ~ /[^\/ ]\/[^\/ ]/ && path !~ /^proofs\//) { # proofs/F/Answers.antt is of any function F
                    if (i == 2 && /^Definitions: /) section = path
                    m = split(names, name, ", ")
                    if (m == 0) print at(), path
                    for (k = 1; k <= m; k++) if (name[k] != "..") print at(), path, name[k]
                } else if (section != "" && path ~ /^[A-Za-z][A-Za-z0-9_-]*$/)
                    print at(), section, path
            }
        }'
}

# defines FILE NAME
defines() {
    case $1 in
    *.antt) grep -Eq "^ *((abbrev|unfoldable) )?(pub )?$2 :|^ *(pub )?(record|data) $2 " "$1" ;;
    *) grep -Eq "(^| )(fn|struct|enum|const|mod) $2[^A-Za-z0-9_]|^ +(pub )?$2: " "$1" ;;
    esac
}

dead_references() {
    for page in $referring; do
        grep -q "^$page:" "$work/references" || echo "$page: no reference was found in it"
    done
    while read -r place path name; do
        [ "$path" != OPEN ] || { echo "$place: a backtick is not closed on its line"; continue; }
        for file in "crates/$path.antt" "crates/$path.edit" "crates/$path" "$path"; do
            [ ! -e "$file" ] || break
        done
        if [ ! -e "$file" ]; then
            echo "$place: no $path"
        elif [ -n "$name" ] && ! defines "$file" "$name"; then
            echo "$place: $path does not define $name"
        fi
    done <"$work/references"
}

missing_places() {
    sed -n 's/^#define SIGN_[A-Z_]*_AT *\([0-9]*\) .*/\1/p' include/sign.h | while read -r place; do
        grep -q "^| ${place}[ -]" docs/HOST.md || echo "docs/HOST.md: no row for byte $place of a block"
    done
}

miscrated() {
    sed -n 's/^| `\([a-z_]*\)` |.*/\1/p' README.md | sort >"$work/told"
    sed -n 's/^\([a-z_]*\)[^:#]*:.*/\1/p' crates.txt | sort | comm -3 - "$work/told" |
        sed 's/[[:space:]]//g; s/.*/README.md: the crate & is not both there and in crates.txt/'
}

# An edit of a contract in src/ is one of a definition: it names the logic's own signs. Behind a line of its own stands what lets
# the proof follow the names of a changed test (tools/renamed.py), which is no part of what is wrong.
miscounted() {
    signs='≡|≤|\.(now|old|new)([^a-z_]|$)'
    code=0 definition=0 both=0
    for edit in crates/*/must-fail/*.edit; do
        sed '/^# the names that the changed test has, in the proof$/,$d' "$edit" >"$work/wrong-program"
        for file in $(sed -n 's/^file: //p' "$work/wrong-program"); do
            case $file in
            src/* | specs/*) ;;
            *) echo "$edit: $file is neither code nor a definition" ;;
            esac
        done
        sed '1,/^# the names that the changed test has, in the proof$/d' "$edit" | sed -n 's/^file: //p' |
            grep -vE '^proofs/.*/(Answers|Invariants)\.antt$' | sed "s|.*|$edit: & is no proof of a function|"
        defined=$(grep -cE "^file: specs/|^old: .*($signs)" "$work/wrong-program" || true)
        coded=$(awk -v signs="$signs" '/^file: /{ f = $2 } /^old: / && f ~ /^src\// && $0 !~ signs { n++ } END { print n + 0 }' "$work/wrong-program")
        if [ "$defined" -eq 0 ]; then
            code=$((code + 1))
        elif [ "$coded" -eq 0 ]; then
            definition=$((definition + 1))
        else
            both=$((both + 1))
        fi
    done
    said="$((code + definition + both)) edits: $code of the code alone, $definition of a definition alone, $both of code and"
    said="$said definition"
    tr '\n' ' ' <docs/PROMISES.md | grep -qF "$said" || echo "docs/PROMISES.md: it should say \"$said\""
}

misrun() {
    awk -f tests/unrun.awk crates/*/src/*.rt | sort >"$work/unrun"
    sed -n '/^Never run as compiled:/,/^$/p' docs/PROMISES.md | grep -o '`[a-z_0-9]*::[a-z_0-9]*`' |
        tr -d '`' | sort >"$work/listed"
    comm -23 "$work/unrun" "$work/listed" | sed 's/.*/docs\/PROMISES.md: no program runs &, and it is not listed/'
    comm -13 "$work/unrun" "$work/listed" | sed 's/.*/docs\/PROMISES.md: & is listed, and it is run/'
    [ -s "$work/listed" ] || echo "docs/PROMISES.md: no function is listed that is never run"
}

# The brackets keep this line from finding itself.
strangers() { xargs grep -nE '/[o]pt/|/[w]ork/|/[r]oot/[A-Za-z]|/[h]ome/[A-Za-z]' /dev/null <"$work/files" || true; }

links >"$work/links"
references >"$work/references"
{ long_lines; long_proofs; dead_links; dead_references; missing_places; miscrated; miscounted; misrun; strangers; } >"$work/wrong"
cat "$work/wrong"
count() { grep -c . "$work/$1" || true; }
echo "docs: $(count pages) pages, $(count links) links, $(count references) references, $(count wrong) wrong"
[ ! -s "$work/wrong" ]
