#!/usr/bin/env bash
# Lists the places of crates/*/src at which an older form of the language may stand, one group for each point of docs/DESIGN-PASS.md.
# Run at the top: tools/places.sh [POINT]. The last line of each group is its count.
set -u
src=$(ls -d crates/*/src)

show() { # the name of the group, and its places on standard input
    local places
    places=$(cat)
    echo "== $1"
    [ -n "$places" ] && echo "$places"
    echo "-- $1: $(printf '%s' "$places" | grep -c .)"
}

grep_src() { grep -rnE --include=*.rt -e "$1" $src; }

# Twins: a name of a function or type that is declared in more than one file; methods of one name for several types are among them.
declared_twice() {
    grep -rnoE --include=*.rt '^ *(pub )?(const )?(fn|struct|enum) \w+' $src |
        sed -E 's/^([^:]*):[0-9]*: *(pub )?(const )?(fn|struct|enum) (\w+)$/\5 \1/' | sort -u |
        awk '{ n[$1]++; at[$1] = at[$1] " " $2 } END { for (w in n) if (n[w] > 1) print w ":" at[w] }' | sort
}

# Facts: a clause that stands in the contracts of three functions or more, without its name.
said_often() {
    grep -rhE --include=*.rt '^ *(requires|ensures)' $src | sed -E 's/^ *(requires|ensures) ?[a-z_]* *//' | sort | uniq -c | sort -rn | awk '$1 > 2'
}

point() {
    case $1 in
        1)
            grep_src '^(pub )?enum \w+' | show "1 enums"
            grep_src '(Err\(\w+\) => (return )?Err\(|Err\(_\) => |Ok\(\w+\) => Some\(|None => (None|return None)|Some\(\w+\) => Some\()|if let Err\(\w+\) = |\.is_err\(\) \{' | show "1 results taken apart by hand"
            grep_src 'let (Ok|Some)\(\w+\) = .* else' | show "1 let else"
            grep_src '^(pub )?const \w+: u8 = |=> Some\([0-9]\),|sender, [67], |, 0, 8, 0|^ *[678]( if .*)? =>' | show "1 numbers for kinds and refusals"
            grep_src ' -> Option<Fault>' | show "1 refusals by Option"
            grep_src 'bool,$|\) -> bool' | show "1 flags"
            ;;
        2) declared_twice | show "2 names declared in two files or more" ;;
        3)
            grep_src 'for [^ ]+ in .*\.\.' | show "3 loops over ranges"
            grep_src '\+= (1|.*len\(\)|.*size.*|.*end.*|.*from\(.*)' | show "3 running counts and places"
            grep_src 'while |loop \{' | show "3 loops with a condition"
            ;;
        4)
            grep_src ' as (u8|u16|u32|u64|usize|char)\b' | show "4 casts"
            grep_src '\[\*?a, \*?b, \*?c' | show "4 arrays taken apart and put together"
            grep_src 'impl .*(Display|Debug|PartialEq|Ord|Clone|From|TryFrom|FromStr)\b.* for ' | show "4 impls by hand"
            grep_src 'fn (of|from_\w+|to_\w+|place|narrowed|told_as)\(' | show "4 conversions by name"
            ;;
        5) said_often | show "5 clauses that stand three times or more" ;;
        6)
            grep_src '(: |<)\[[A-Za-z0-9]+; \w+\]|= \[[^]]*; \w+\];' | show "6 arrays of a fixed length"
            grep_src 'if \w+ == \*\w+ \{|== \*other|\.as_str\(\) == ' | show "6 searches by hand"
            ;;
        7) grep_src '\bdyn\b|\bfn\(|impl Fn|match .*(phase|step)' | show "7 switches and tables of functions" ;;
        8)
            for crate in crates/*/; do
                n=$(cat $(find "$crate" -name Answers.antt -not -path '*/out/*') /dev/null | grep -cE '^(pub |abbrev pub )[a-z].* : goal\.')
                echo "$n $crate"
            done | awk '$1 > 0' | sort -rn | show "8 crates with answers"
            ;;
    esac
}

for p in ${1:-1 2 3 4 5 6 7 8}; do point "$p"; done
