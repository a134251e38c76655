# For the scripts that hold a verdict program to tables of its whole output: sections `== HEADING` and what is printed. A list of cases
# uses every section once; the status of every run counts, and what it writes on standard error.
LC_ALL=C && export LC_ALL # what diff and bash say does not depend on the machine
work=$(mktemp -d) && trap 'rm -rf "$work"' EXIT && mkdir "$work/wanted" "$work/given" || exit 2
wrong=0

# fault WORDS: after twenty no more is tried.
fault() {
    echo "$1"
    wrong=$((wrong + 1))
    [ "$wrong" -lt 20 ] || { echo "20 faults: the rest is not tried"; exit 1; }
}

# sections TABLE..: makes a file wanted/NAME of each section, and a line NAME HEADING of the list $work/sections. NAME is the table's
# and the heading, spaces as commas and slashes as colons. Lines with # may stand before the first section.
sections() {
    awk -v folder="$work/wanted/" -v list="$work/sections" '
        function say(words) { print words; bad = 1 }
        function end() { if (name != "" && !lines) say("empty section: " name); close(folder name); name = "" }
        FNR == 1 { end(); table = FILENAME; sub(/.*\//, "", table); sub(/\.expected$/, "", table) }
        /^== / {
            end()
            heading = substr($0, 4)
            name = table "," heading
            gsub(/ /, ",", name)
            gsub(/\//, ":", name)
            if (name in seen) say("section twice: " name)
            seen[name]
            filled[FILENAME]
            lines = 0
            print name, heading >list
            next
        }
        name == "" { if (!/^#/) say("a line before the first section: " $0); next }
        { print >(folder name); lines++ }
        END {
            end()
            for (i = 1; i < ARGC; i++) if (!(ARGV[i] in filled)) say("no section in " ARGV[i])
            exit bad
        }' "$@" || exit 1
}

# used CASES: do these lines NAME CLIENT SERVER use every section once?
used() {
    cut -d ' ' -f 1 "$1" | sort >"$work/names"
    cut -d ' ' -f 1 "$work/sections" | sort >"$work/all"
    {
        uniq -d "$work/names" | sed 's/^/case twice: /'
        comm -23 "$work/names" "$work/all" | sed 's/^/no section: /'
        comm -13 "$work/names" "$work/all" | sed 's/^/section never used: /'
    } >"$work/unused"
    [ -s "$work/names" ] || echo "nothing to compare" >>"$work/unused"
    [ ! -s "$work/unused" ] || { head -n 20 "$work/unused"; exit 1; }
}

# present FILE: a name that no file has would be judged as an empty file.
present() { [ -f "$1" ] || fault "no such file: $1"; }

# judged PROGRAM CASES: makes a file given/NAME of what each run prints.
judged() {
    while read -r name client server; do
        "$1" "$client" "$server" </dev/null >"$work/given/$name" 2>>"$work/said" || fault "status $?: $name"
    done <"$2"
    [ ! -s "$work/said" ] || { head -n 5 "$work/said"; fault "words on standard error"; }
}

# told: compares all that was given with all that was wanted, byte for byte, and ends the script.
told() {
    cd "$work" || exit 2
    diff -r wanted given >differs 2>&1 || wrong=$((wrong + $(grep -c '^[A-Za-z]' differs)))
    head -n 60 differs
    set -- given/*
    echo "$# compared, $wrong wrong"
    [ "$wrong" -eq 0 ]
    exit
}
