#!/usr/bin/env bash
# Compares what the program and the commands make of the rows, the words, the scenes and the days of traffic with the
# texts that are stored here and in examples/, and runs the commands of README.md and of the pages of examples/. The last
# line counts what differs; the status is 1 if something does.
#     tests/compare.sh                    builds the program that replays without its proofs, which takes a minute, and
#                                         leaves out what needs a built one
#     tests/compare.sh PROGRAM            takes a built one, such as crates/ocpp_board/out/ocpp_board
#     tests/compare.sh PROGRAM REPLAY     and beside it one that only replays, such as crates/ocpp_replay/out/ocpp_replay
#     tests/compare.sh - REPLAY           only that one: without the words, the scenes and the servers of the first
set -u
program=
[ -z "${1-}" ] || [ "$1" = - ] || program=$(realpath "$1")
replay=${2:+$(realpath "$2")}
# What answers scripts.
answers=${program:-$replay}
top=$(cd "$(dirname "$0")/.." && pwd) && cd "$top/tests/tools" || exit
# Pages are made by Debian's Python, which needs Jinja2 for them.
export PATH=/usr/bin:$PATH
# What the commands run.
[ -z "$answers" ] || export OCPP_BOARD_PROGRAM=$answers
pageless=$("$top/tests/installed" python3-jinja2)
# What is compared is in this folder, and the days of traffic are in:
export days=../../examples
export board=$top/python/ocpp-board
export one=$top/tests/one
made=$(mktemp -d) || exit
trap 'rm -r "$made"' EXIT
different=0

# differs NAME: reports that it is not as stored.
differs() {
    echo "$1: differs"
    different=$((different + 1))
}

# made_by COMMAND..: runs it; shows its standard error if it fails.
made_by() {
    "$@" 2> "$made/stderr" || { cat "$made/stderr" >&2; differs "$1"; }
}

# as_stored NAME FILE: FILE is the stored text NAME.
as_stored() {
    diff --label stored --label made -u "$1" "$2" && echo "$1: as stored" || differs "$1"
}

# gives STATUS NAME COMMAND..: the command ends with this status, writes the stored text NAME, and NAME.stderr to its standard
# error; one of the two may not be stored. If its status is another, that is shown. A NAME of - means neither.
gives() {
    local status=$1 name=$2
    shift 2
    "$@" > "$made/given" 2> "$made/stderr"
    local ended=$?
    [ "$name" = - ] || [ -e "$name" ] || [ -e "$name.stderr" ] || differs "$name, which is not stored,"
    [ ! -e "$name" ] || as_stored "$name" "$made/given"
    [ ! -e "$name.stderr" ] || as_stored "$name.stderr" "$made/stderr"
    [ $ended = "$status" ] || { cat "$made/stderr"; differs "the status of $*: $ended, not $status,"; }
}

# reports STATUS LINE COMMAND..: the command ends with this status, and its standard error has LINE.
reports() {
    local status=$1 line=$2
    shift 2
    "$@" > "$made/given" 2> "$made/stderr"
    local ended=$?
    if [ $ended = "$status" ] && grep -qF -- "$line" "$made/stderr"; then
        echo "reported: $line"
    else
        cat "$made/stderr"
        differs "what $* reports (status $ended, not $status with '$line')"
    fi
}

# replays COMMAND..: of each script, its stored text.
replays() {
    for text in "$made"/cases/*.stdout; do
        "$@" < "${text%.stdout}" > "$made/written" 2>&1 || echo "status $?" >> "$made/written"
        diff --label stored --label written -u "$text" "$made/written" || differs "$(basename "$text" .stdout), by $*,"
    done
    echo "scripts: $(ls "$made"/cases/*.stdout | wc -l) compared, by $(basename "$1")"
}

# burst COMMAND..: a burst of events through a pipe is answered before more comes there.
burst() {
    local events=200
    "$one" traffic $events | grep -v '^board' > "$made/burst.script"
    coproc "$@" 2> /dev/null
    cat "$made/burst.script" >&"${COPROC[1]}"
    timeout 20 head -n $events <&"${COPROC[0]}" > "$made/answers"
    if [ "$(grep -c '^\[3,"' "$made/answers")" = $events ]; then
        echo "a burst of $events events: answered before more comes, by $(basename "$1")"
    else
        differs "a burst of $events events, by $*,"
    fi
    exec {COPROC[1]}>&-
    wait "$COPROC_PID"
}

# What explain and traffic give, which run the program or write for it.
with_answers() {
    local name
    for name in mistakes:1 mark:1 near:0 orders:1; do
        gives "${name#*:}" "explain/${name%:*}.stderr" "$board" explain "explain/${name%:*}.script"
    done
    gives 0 explain/nothing.stderr "$board" explain forms/ocpp.script
    gzip -c "$days/day.script" > "$made/day.script.gz"
    gives 1 explain/gzip.stderr bash -c 'cd "$1" && "$board" explain day.script.gz' _ "$made"
    reports 2 "No such file or directory" "$board" explain nowhere.script
    reports 2 "./nowhere: No such file or directory" "$board" explain --program ./nowhere "$days/day.script"
    reports 2 "No space left on device" bash -c '"$board" explain explain/mistakes.script > /dev/full'

    # A day on which stations list readings again has, by moment, the periods of the same day without them; by sequence
    # it has others.
    "$one" traffic 3 sessions | "$answers" replay | grep '^period' > "$made/once.lines"
    "$one" traffic 3 repeats | "$answers" replay | grep '^period' > "$made/again.lines"
    "$one" traffic 3 repeats | grep -v '^order' | "$answers" replay | grep '^period' > "$made/sequence.lines"
    if diff "$made/once.lines" "$made/again.lines" && ! cmp -s "$made/once.lines" "$made/sequence.lines"; then
        echo "a day with readings that are listed again: $(wc -l < "$made/once.lines") periods as without"
    else
        differs "a day with readings that are listed again"
    fi
    # Commands that are drawn, at a site by moment and at one by sequence, against plain lists.
    "$one" drawn_orders "$answers" || differs drawn_orders
    "$one" settled_month "$answers" || differs settled_month

    # 50 events of each of two stations: a session of 48 and one of 2. In each all but the first rise by 250 Wh.
    gives 0 forms/traffic.text bash -c '"$one" traffic 100 --stations 2 | "$1" replay | grep -v "^.3,"' _ "$answers"
}

# The commands of the pages that a user reads first, and what comes of them.
as_the_pages_say() {
    written_as README.md
    written_as examples/a-log-to-a-page/README.md
    written_as examples/beside-a-csms/README.md
    written_as examples/thousands-of-stations/README.md
    local name
    for name in site/index.html site/riverside/findings.csv live/riverside/index.html month/index.html; do
        [ -s "$made/as_written/$name" ] || differs "what the commands write: no $name"
    done
    if [ -n "$program" ] && /usr/bin/python3 -c "import websockets" 2> /dev/null; then
        written_as examples/clients/README.md
        grep -q "^tx tx-1 .* complete=yes" "$made/given" || differs "the board of the client that examples/clients shows"
    else
        echo "examples/clients/README.md: not tried, for want of the program or of python3-websockets"
    fi
}

# written_as README: the commands of this page, with the program that is built and in a folder of their own, but for
# those that prove and build, and the tests. Those that go on are ended by a signal after a while, as a user does.
written_as() {
    local port=$((20000 + RANDOM % 10000))
    mkdir -p "$made/as_written"
    {
        # A follower is ended by a signal once its pages are there.
        echo "followed() {
            rm -f $made/as_written/live/index.html
            timeout -s INT --preserve-status 400 \"\$@\" & local follower=\$! waits=300
            until [ -s $made/as_written/live/index.html ] || [ \$((waits -= 1)) = 0 ]; do sleep 1; done
            sleep 3; kill -INT \$follower; wait \$follower
        }"
        sed -n '/^```sh$/,/^```$/{/^```/!p}; s/^    //p' "$top/$1" | sed "/^\.\/start\|^\.ci\/run\|tests\/run\|packaging\/\|apt-get /d
            s|/tmp/|$made/as_written/|g; s/\b9000\b/$port/g; s/\b9100\b/$((port + 1))/g; s/\b9180\b/$((port + 2))/g
            s|crates/ocpp_board/out/ocpp_board|$program|
            s|^python/ocpp-board follow|followed python/ocpp-board follow|"
        # What was started in the background ends with the page.
        echo 'for job in $(jobs -p); do sleep 3; kill -0 $job && kill $job || true; done; wait'
    } > "$made/written.sh"
    # A background job of a shell without job control ignores an interrupt.
    if (cd "$top" && bash -em "$made/written.sh" < /dev/null) > "$made/given" 2> "$made/stderr"; then
        echo "$1: $(wc -l < "$made/written.sh") lines as written"
    else
        cat "$made/given" "$made/stderr"
        differs "$1"
    fi
}

# The logs become scripts. That of the first day has other fields, and its messages are JSON.
day_of_log=("$board" log-to-script --site-field location --station-field chargePoint --time-field at --message-field frame
    --json-message --direction-field from --incoming station --no-received)
gives 0 "$days/day.jsonl.script" "${day_of_log[@]}" "$days/day.jsonl"
gives 0 "$days/site_day.jsonl.script" "$board" log-to-script --no-received "$days/site_day.jsonl"
gives 0 forms/ocpp.script "$board" log-to-script --no-received --form ocpp --site north --utc forms/ocpp.log
gives 0 forms/maeve.script "$board" log-to-script --no-received --form maeve --stations forms/stations.txt --no-boards \
    forms/maeve.mqtt
citrineos=(--no-received --site north --site-map forms/sites.txt --limits 100 1000 2000 1000000)
gives 0 forms/citrineos.script "$board" log-to-script --form citrineos "${citrineos[@]}" forms/citrineos.jsonl
gives 0 forms/periods.script "$board" log-to-script --no-received --form citrineos --site north --site-map forms/sites.txt --period 1800 \
    --period north=300 forms/citrineos.jsonl
gives 0 forms/orders.script "$board" log-to-script --no-received --form citrineos --site north --site-map forms/sites.txt --order moment \
    --order north=sequence forms/citrineos.jsonl
gives 0 "$days/repeats.script" "$one" traffic 3 repeats
gives 0 forms/citrineos.script "$board" log-to-script --form citrineos-csv "${citrineos[@]}" forms/citrineos.csv
gives 0 forms/arrows.script "$board" log-to-script --no-received --form arrows --site north forms/arrows.log
gives 0 forms/regex.script "$board" log-to-script --incoming up \
    --regex '^(?P<time>[0-9.]+)\|(?P<site>[^/]+)/(?P<station>[^|]+)\|(?P<direction>up|down)\|(?P<message>.*)' forms/regex.log
gives 0 forms/nested.script "$board" log-to-script --time-field meta.at --site-field charger.site --station-field charger.id \
    --no-received --protocol-field charger.version --message-field frame.raw --json-message forms/nested.jsonl

# Compressed logs, one of them cut short, and words and lines that can't be taken.
gzip -c "$days/day.jsonl" > "$made/day.jsonl.gz"
gives 0 "$days/day.jsonl.script" "${day_of_log[@]}" "$made/day.jsonl.gz"
head -c -100 "$made/day.jsonl.gz" > "$made/cut.gz"
reports 1 "the gzip is cut short" "${day_of_log[@]}" "$made/cut.gz"
gives 1 forms/mistakes.script "$board" log-to-script --no-received forms/mistakes.jsonl
reports 0 "a time has no offset from UTC (--utc takes such times as UTC); its message goes without a time" \
    "$board" log-to-script --form ocpp --site north forms/ocpp.log
reports 1 "examples/day.jsonl line 58: neither this line nor one before it is of the form ocpp" "$board" log-to-script --form ocpp --site n "$days/day.jsonl"
reports 1 "neither this line nor one before it is of the form maeve" \
    "$board" log-to-script --form maeve --site north forms/ocpp.log
reports 2 "forms/ocpp.log line 1 names no column message, origin, stationId, timestamp" \
    "$board" log-to-script --form citrineos-csv --site north forms/ocpp.log
reports 2 "has no sites: --site, --site-map or --stations names them" "$board" log-to-script --form ocpp forms/ocpp.log
reports 2 "forms/ocpp.log line 2: not two names" "$board" log-to-script --stations forms/ocpp.log "$days/day.jsonl"
reports 2 "not 300, 900, 1800 or 3600 seconds: 'north=600'" "$board" log-to-script --period north=600 "$days/day.jsonl"
reports 2 "no name of a site: 'no/name=300'" "$board" log-to-script --period no/name=300 "$days/day.jsonl"
reports 2 "not sequence or moment: 'north=time'" "$board" log-to-script --order north=time "$days/day.jsonl"
reports 2 "no name of a site: 'no/name=moment'" "$board" log-to-script --order no/name=moment "$days/day.jsonl"
reports 2 "--order names the site 'nroth', which the log does not have; its sites: riverside" \
    "$board" log-to-script --order nroth=moment "$days/site_day.jsonl"
reports 2 "No such file or directory" "$board" log-to-script nowhere.jsonl
reports 2 "No space left on device" bash -c '"$board" log-to-script "$days/site_day.jsonl" > /dev/full'
reports 2 "No space left on device" bash -c '"$board" log-to-script --form maeve --stations forms/stations.txt forms/maeve.mqtt > /dev/full'

# With --stations a line goes out before the next is there, behind four lines that declare two stations of a site.
coproc "$board" log-to-script --form maeve --stations forms/stations.txt 2> /dev/null
declared=0
while [ $declared -lt 4 ] && read -r -t 20 -u "${COPROC[0]}" next; do
    declared=$((declared + 1))
done
if [ $declared = 4 ] &&
    echo 'cs/in/ocpp2.0.1/CS-02 {"type":"call","action":"Heartbeat","id":"h1","request":{}}' >&"${COPROC[1]}" &&
    read -r -t 20 -u "${COPROC[0]}" next && [ "$next" = 'msg CS-02 [2,"h1","Heartbeat",{}]' ]; then
    echo "a line of a log that grows: at once"
else
    differs "a line of a log that grows"
fi
exec {COPROC[1]}>&-
wait "$COPROC_PID"

# The rows, and the scripts of days, those by hand and those of the logs, become replies and boards.
mkdir "$made/cases"
made_by "$one" rows.rows "$made/cases" ../rows/*.rows
# Drawn times, with the answers of Python's reader.
made_by "$one" drawn_times "$made/cases"
for script in "$days"/*.script; do
    name=$(basename "$script" .script)
    cp "$script" "$made/cases/$name"
    cp "$days/$name.expected" "$made/cases/$name.stdout"
done
if [ -n "$program" ]; then
    replays "$program" replay
    burst "$program" replay
    "$one" words.words "$program" ../words/words.txt || differs words.txt
    for scenes in sessions serving living journalling; do
        "$one" "scenes.$scenes" "$program" || differs "$scenes"
    done
elif [ -z "$replay" ]; then
    (cd "$top/crates/ocpp_replay" && rt try --steps 1 --seconds 300 --cases "$made/cases") 2>&1 |
        grep -v ' output=expected '
    [ "${PIPESTATUS[0]}" = 0 ] || differs "scripts"
    echo "not run, since they need a built program: the words, the scenes, explain and the commands of pages"
fi

# The program that only replays, with a word and without.
if [ -n "$replay" ]; then
    replays "$replay"
    replays "$replay" replay
    burst "$replay"
    "$one" words.words "$replay" ../words/replay.txt || differs replay.txt
fi

if [ -n "$answers" ]; then
    with_answers
    [ -n "$pageless" ] || as_the_pages_say
fi
[ -z "$pageless" ] || echo "not run: the commands that make pages, since there is $pageless"

# Traffic for measuring, and the clients' words.
gives 0 forms/traffic.script "$one" traffic 3
reports 2 "N is from 0 to 1,048,576" "$one" traffic 1048577
reports 2 "N is from 0 to 1000 with troubles" "$one" traffic 1001 troubles
reports 2 "200,000 events need 4 to 64 stations" "$one" traffic 200000 --stations 3
reports 2 "No space left on device" bash -c '"$one" traffic 10 > /dev/full'
gives 0 - "$days/clients/station.py" --help
reports 1 "Debian: apt-get install python3-websockets" python3 -c 'import runpy, sys
sys.modules["websockets"] = None
sys.argv = ["station.py", "ws://127.0.0.1:1/ocpp", "CS-01"]
runpy.run_path("../../examples/clients/station.py", run_name="__main__")'
if node=$(command -v node); then
    gives 0 - "$days/clients/station.js" --help
    mkdir "$made/alone"
    cp "$days/clients/station.js" "$made/alone"
    reports 1 "Debian: apt-get install node-ws" env NODE_PATH= "$node" "$made/alone/station.js" ws://127.0.0.1:1/ocpp CS-01
    reports 2 "a URL and a station are needed" "$days/clients/station.js"
fi
echo "different: $different"
[ $different = 0 ]
