#!/bin/sh
# stored.sh PROGRAM
# Runs the program over what is stored: the cases of answers.txt, the schedules, the lines of refused.txt and told.txt, the helps of
# helps.txt, the configurations of checked/, and files that can't be read or written. Prints each run that differs from what is wanted, and
# ends with 1 where one does.
program=$(realpath -e "$1") || exit 1
cd "$(dirname "$0")" && mkdir -p ../out || exit 1
configuration=../examples/configuration.toml
worked=../examples/worked.toml
exchange=../examples/schedules/01-exchange
runs=0
failed=0

# differs NAME WANTED: reports that the last run was another than is wanted.
differs() {
    echo "$1: status $status, '$(cat ../out/stdout)', '$(cat ../out/stderr)'; wanted $2"
    failed=1
}

# plays SCHEDULE: plays a schedule, and shows where its lines differ from those of the file beside it. What it reports is that of a file
# beside it, too, or nothing where there is none.
plays() {
    "$program" play "$1" > ../out/stdout 2> ../out/stderr
    status=$?
    runs=$((runs + 1))
    reported=${1%.schedule}.err
    [ -e "$reported" ] || reported=/dev/null
    [ $status = 0 ] && cmp -s "$reported" ../out/stderr && diff -u "${1%.schedule}.out" ../out/stdout ||
        differs "$1" "0, '$(cat "${1%.schedule}.out")', '$(cat "$reported")'"
}

# holds FILE TEXT: whether the file is this line, nothing where TEXT is empty, any text where it is *, and the
# same as FILE where it is @FILE.
holds() {
    case $2 in
        '') [ ! -s "$1" ] ;;
        '*') [ -s "$1" ] ;;
        @*) cmp -s "${2#@}" "$1" ;;
        *) printf '%s\n' "$2" | cmp -s - "$1" ;;
    esac
}

# expect NAME STATUS OUTPUT ERROR WORD...: runs the program with these words, and standard input as it is given.
expect() {
    name=$1 wanted_status=$2 wanted_output=$3 wanted_error=$4
    shift 4
    "$program" "$@" > ../out/stdout 2> ../out/stderr
    status=$?
    runs=$((runs + 1))
    [ $status = "$wanted_status" ] && holds ../out/stdout "$wanted_output" &&
        holds ../out/stderr "$wanted_error" ||
        differs "$name" "$wanted_status, '$wanted_output', '$wanted_error'"
}

# Runs the case that was read, and forgets it.
run_case() {
    [ -n "$title" ] || return 0
    case $input in
        @*) from=${input#@} ;;
        *)
            from=../out/stdin
            printf '%b' "$input" > $from
            ;;
    esac
    eval "set -- $words"
    expect "$title" "$code" "$output" "$error" "$@" < "$from" || failed=1
    title='' words='' input='' code=0 output='' error=''
}

title='' words='' input='' code=0 output='' error=''
while IFS= read -r line || [ -n "$line" ]; do
    value=${line#*: }
    case $line in
        '#'*) ;;
        '') run_case ;;
        'case: '*) title=$value ;;
        'words: '*) words=$words$value ;;
        'input: '*) input=$input$value ;;
        'status: '*) code=$value ;;
        'output: '*) output=$output$value ;;
        'error: '*) error=$error$value ;;
        *)
            echo "answers.txt: '$line' begins with no key"
            failed=1
            ;;
    esac
done < answers.txt
run_case
[ $runs -gt 0 ] || failed=1

for schedule in ../examples/schedules/*.schedule ../examples/attacks/*.schedule schedules/*/*.schedule; do
    plays "$schedule"
done

# Each line of refused.txt, in a schedule of the worked configuration.
while IFS='|' read -r part fault text; do
    case $part in
        '#'* | '') continue ;;
        script) cat $worked && printf -- '---\n%b\n' "$text" ;;
        configuration) sed "$text" $worked && echo --- ;;
        whole) printf '%b' "$text" ;;
    esac > ../out/schedule
    expect "refused.txt: $text" 2 '' "lispd: fault $fault" play ../out/schedule
done < refused.txt

# Each line of told.txt: words, how the program ends, its fault, and what it tells of that on standard error.
while IFS='|' read -r words code fault text; do
    case $words in
        '#'* | '') continue ;;
    esac
    eval "set -- $words"
    expect "told.txt: $words" "$code" '' "lispd: fault $fault
lispd$text" --words "$@" < /dev/null
done < told.txt

# helps.txt: words for a help, each before what it prints.
sed -n 's/^\$ lispd //p' helps.txt | while IFS= read -r words; do
    echo "\$ lispd $words"
    "$program" $words
done | sed "s/^Usage: ${program##*/} /Usage: lispd /" > ../out/helps
runs=$((runs + 1))
diff -u helps.txt ../out/helps || failed=1

expect 'a schedule on standard input' 0 @$exchange.out '' play - < $exchange.schedule
expect 'a schedule that is not there' 1 '' 'lispd: fault 93' play no-such.schedule
expect 'a directory as a schedule' 1 '' 'lispd: fault 87' play .
head -c 1048577 /dev/zero | tr '\0' '#' > ../out/long
expect 'a schedule of 1,048,577 bytes' 1 '' 'lispd: fault 89' play ../out/long
expect 'a directory as input' 1 '' 'lispd: fault 87' < .
head -c 1048576 /dev/zero | tr '\0' z > ../out/long
expect 'a line of 1,048,576 bytes' 0 'refused 94' '' < ../out/long
head -c 1048577 /dev/zero | tr '\0' 0 > ../out/long
expect 'a line of 1,048,577 bytes' 1 '' 'lispd: fault 89' < ../out/long

# fills WORD...: runs the program with these words and an output that is full.
fills() {
    : > ../out/stdout
    "$program" "$@" < ../examples/map-register.hex > /dev/full 2> ../out/stderr
    status=$?
    [ $status = 1 ] && holds ../out/stderr 'lispd: fault 88' ||
        differs "a full output, words '$*'" "1, '', 'lispd: fault 88'"
}

fills
fills play $exchange.schedule
fills draw $exchange.schedule
fills draw --text $exchange.schedule
fills --help
fills --version

expect 'a configuration that is checked' 0 @checked/example.txt '' check - < $configuration
: > ../out/configuration.toml
expect 'an empty configuration' 0 'warning: -: no server and no router' '' check - < ../out/configuration.toml

# Each configuration of checked/, with its warnings, and with its faults where it has some.
for file in checked/*.toml; do
    wanted=${file%.toml}
    if [ -e "$wanted.err" ]; then
        output=''
        [ -e "$wanted.txt" ] && output=@$wanted.txt
        expect "$file" 2 "$output" "@$wanted.err" check - < "$file"
    else
        expect "$file" 0 "@$wanted.txt" '' check - < "$file"
    fi
done

# Each kind of warning is one of those that were compared.
sed -n 's/^warning: -: \(line [0-9]*: \)\{0,1\}//p' checked/*.txt > ../out/warned
while IFS='|' read -r kind words; do
    case $kind in
        '#'*) continue ;;
    esac
    grep -qxF -e "$words" ../out/warned || {
        echo "warnings.txt: no configuration has '$words'"
        failed=1
    }
done < checked/warnings.txt

# Each line of faults.txt, by what it makes of the configuration.
while IFS='|' read -r fault words edit; do
    case $fault in
        '#'* | '') continue ;;
    esac
    sed "$edit" $configuration > ../out/configuration.toml
    "$program" check - < ../out/configuration.toml > ../out/stdout 2> ../out/stderr
    status=$?
    runs=$((runs + 1))
    [ $status = 2 ] && [ ! -s ../out/stdout ] && [ "$(sed -n 1p ../out/stderr)" = "lispd: fault $fault" ] &&
        case "$(sed -n '2,$p' ../out/stderr)" in "lispd check -: $words"*) ;; *) false ;; esac ||
        differs "faults.txt: $edit" "2, '', 'lispd: fault $fault', 'lispd check -: $words'"
done < checked/faults.txt

# A file that others can read; --strict. Nothing else is warned of: its site has most_rows.
sed 's/^id = "0000000000000001"/&\nmost_rows = 100/' $configuration > ../out/configuration.toml
sed '/^warning: /d' checked/example.txt > ../out/understood
chmod 600 ../out/configuration.toml
expect 'a file of its owner alone' 0 @../out/understood '' check ../out/configuration.toml
expect 'no warning, with --strict' 0 @../out/understood '' check --strict ../out/configuration.toml
{ cat ../out/understood && echo 'warning: ../out/configuration.toml: others can read the file, and it holds secrets'; } > ../out/wanted
for mode in 640 604; do
    chmod $mode ../out/configuration.toml
    expect "a file of mode $mode" 0 @../out/wanted '' check ../out/configuration.toml
done
expect 'a warning, with --strict' 2 @../out/wanted 'lispd: fault 25
lispd check ../out/configuration.toml --strict: the configuration has warnings, and --strict was given' \
    check ../out/configuration.toml --strict
expect 'a configuration that is not there' 1 '' "lispd: fault 93
lispd check no-such.toml: no-such.toml: can't be opened: No such file or directory (os error 2)" check no-such.toml
printf '\377' > ../out/configuration.toml
expect 'a configuration that is not UTF-8' 2 '' 'lispd: fault 95
lispd check -: the input is not UTF-8' check - < ../out/configuration.toml

expect 'every number explained' 0 @../docs/REFUSALS.md '' explain
expect 'a number explained' 0 '*' '' explain 57
"$program" explain 57 > ../out/wanted
expect 'a line explained' 0 @../out/wanted '' explain 57 saved 3
expect 'a line explained, in one word' 0 @../out/wanted '' explain '57 saved 3'
{ "$program" explain 56 && "$program" explain 30; } > ../out/wanted
expect 'a line with a fault explained' 0 @../out/wanted '' explain 56 store 30
{ "$program" explain 50 && "$program" explain 15 && "$program" explain 3; } > ../out/wanted
expect 'a line with two faults explained' 0 @../out/wanted '' explain 50 read 15 record 0 fault 3
{ "$program" explain 59 && "$program" explain 30; } > ../out/wanted
for line in 'refused s1 59 store 30 StorageFull from 192.0.2.1' 'Nov 29 03:23:24 host lispd[812]: refused s1 59 store 30 StorageFull' \
    '2026-11-29T03:23:24Z refused r1 59 store 30' '59 store 30 StorageFull from 2001:db8:0:0:0:0:0:1'; do
    expect "explained: '$line'" 0 @../out/wanted '' explain "$line"
    expect "explained, in several words: '$line'" 0 @../out/wanted '' explain $line
done
while IFS='|' read -r number line; do
    "$program" explain "$number" > ../out/wanted
    expect "explained by $number: '$line'" 0 @../out/wanted '' explain "$line"
done <<'END'
57|refused s1 57 saved 3 from 192.0.2.1
57|57 saved 5
53|53 from 192.0.2.9
53|refused s1 53 from 192.0.2.9 times 8123
53|refused s1 53 from others times 99
91|refused s1 91 NetworkUnreachable
91|91 NetworkUnreachable
77|fault 77
93|lispd: fault 93
85|lispd: fault 85 line 3
93|Nov 29 03:23:24 host lispd[812]: lispd: fault 93
55|1764386604 refused s1 55 record 2 from 192.0.2.11
46|29 Nov 03:23:24 host lispd[812]: refused r1 46 from 192.0.2.1
57|replays s1 from 192.0.2.21 times 61 saved 7 age 181000
69|refused s1 69 from 192.0.2.9 times 8123
136|refused s1 136 from 192.0.2.9
137|137 record 2
138|refused s1 138 saved 7 from 192.0.2.9
139|refused s1 139 from 192.0.2.9 times 8123
140|refused s1 140 from 192.0.2.9
END
{ "$program" explain 50 && "$program" explain 14; } > ../out/wanted
expect 'a whole line with a fault explained' 0 @../out/wanted '' explain refused s1 50 read 14
for line in 146 x '' '57 saved' '57 saved x' '57 58' '57 store 146' '57 saves 3' 65536 refused 'refused s1' 'refused s1 x' 'refused 57' \
    'refused s1 57 saved x' 'refused s1 57 from nowhere' 'refused s1 57 from' 'refused s1 53 times 4 lines' 'refused s1 56 store 146' \
    'accepted s1 r1 key 1 nonce 7 from 192.0.2.21' 'host lispd[812]: 57 saved 3' 'replays s1 from 192.0.2.21 times' 'counts s1 refused 57 4'; do
    expect "no line: '$line'" 2 '' 'lispd: fault 98' explain "$line"
done

expect 'a fault in words' 1 '' "lispd: fault 93
lispd play no-such.schedule --words: no-such.schedule: can't be opened: No such file or directory (os error 2)" play no-such.schedule --words
expect 'a fault in words, asked for first' 1 '' "lispd: fault 93
lispd --words play no-such.schedule: no-such.schedule: can't be opened: No such file or directory (os error 2)" --words play no-such.schedule
expect 'a bad value in words' 2 '' 'lispd: fault 98
lispd: bad value for --key. Key ID: a decimal number from 0 to 255, such as 1 (the default)' answer --words --key 256
expect 'a fault in words, without a subcommand' 1 '' "lispd: fault 87
lispd: standard input: can't be read: Is a directory (os error 21)" --words < .
for node in 'server s1' 'router r1'; do
    set -- $node
    expect "$1 with --known and --turns" 2 '' "lispd: fault 98
lispd: --known isn't taken with --turns" "$1" $configuration "$2" --store ../out/no-such --known --turns 1 --words
done

# parts COUNT WANTED: checks a configuration whose first router has so many records, of which WANTED tells the parts.
parts() {
    list=$(awk -v count="$1" 'BEGIN { for (i = 0; i < count; i++) printf "\"10.1.%d.%d/32=1\", ", i / 256, i % 256 }')
    sed "0,/^records = .*/s||records = [$list]|" $configuration > ../out/configuration.toml
    "$program" check ../out/configuration.toml > ../out/stdout 2> ../out/stderr
    status=$?
    runs=$((runs + 1))
    [ $status = 0 ] && [ "$(sed -n 's/^router r1 .* proxy\(.*\) record 10\.1\.0\.0.*/\1/p' ../out/stdout)" = "$2" ] ||
        differs "a configuration with $1 records" "0, '$2'"
}

parts 255 ''
parts 256 ' parts 2'
parts 1024 ' parts 5'

# changes COUNT LOCATORS: a schedule that gives r1 so many records, each with these locators.
changes() {
    cat $configuration
    awk -v count="$1" -v locators="$2" 'BEGIN {
        printf "---\nchange r1"
        for (i = 0; i < count; i++) printf " 10.1.%d.%d/32=1%s", i / 256, i % 256, locators
        print ""
    }'
}

# Five records of 255 locators are a part.
locators=$(printf '+192.0.2.1%.0s' $(seq 255))
changes 1024 '' > ../out/schedule
expect 'a database of 1,024 records' 0 'change r1 records 1024' '' play ../out/schedule
changes 1025 '' > ../out/schedule
expect 'a database of 1,025 records' 2 '' 'lispd: fault 84 line 1' play ../out/schedule
changes 80 "$locators" > ../out/schedule
expect 'a database of 16 parts' 0 'change r1 records 80' '' play ../out/schedule
changes 81 "$locators" > ../out/schedule
expect 'a database of 17 parts' 2 '' 'lispd: fault 84 line 1' play ../out/schedule

exit $failed
