# shellcheck shell=sh disable=SC2154
# What ./rv and ./rv-coverage do, each of which reads this with three things set: $top, the checkout; $command, its own name; and
# $crate, the crate of its program. Runs the program where the caller stands; proves and builds it first where it was not built
# from the sources as they stand. Standard input and output, the words and the status are the program's own. Where no program can
# be built the status is 125, which is none of the program's, and the last line on standard error says why. A build is logged.
# With --unproved before the words the sources answer before any proof (tools/lib/rv_unproved.py); --help and --version build nothing.
set -u

made=crates/$crate/out/$crate
program=$top/$made
stamp=$top/out/$command.stamp
log=$top/out/$command.log
# rt ci holds this file's lock while it runs in the checkout
gate=$top/.git/rt-ci.lock
# megabytes of memory that a proof may take
memory_of_a_proof=3000
# megabytes of disk: the least that rt works with, and what it keeps of a crate on the average
disk_of_a_build=3000
disk_of_a_crate=270
# seconds that a crate takes on the average, on four processors: the 31 of ./rv took 22 minutes
seconds_of_a_crate=43

# A line on standard error. What a terminal would obey in it, as in the name of a folder, is shown.
say() {
    if [ -t 2 ]; then
        printf '%s: %s\n' "$command" "$(printf %s "$1" | cat -v | tr '\n' '?')" >&2
    else
        printf '%s: %s\n' "$command" "$1" >&2
    fi
}

doing=build
refuse() {
    say "cannot $doing the program: $1"
    exit 125
}

# The forms of the words, a line each.
show_forms() {
    if [ "$command" = rv ]; then
        cat <<'END'
usage: ./rv WORDS              runs the program, and proves and builds it first if need be
       ./rv --unproved WORDS   answers before any proof, in a minute or two
       ./rv --help, --version

WORDS are one of these:

  replay BINDINGS TRACE                   prints the failures of a trace: take this for a verdict
  feed BINDINGS TRACE [CONTROL]           runs a thread for each CPU, and a control script
  watch BINDINGS TRACE MONITOR INSTANCE   does as feed, and reads one instance meanwhile
  journal BINDINGS TRACE                  prints the history of such a run, a line for each step
  check BINDINGS TRACE JOURNAL            says whether a text is such a history
  control BINDINGS SCRIPT                 tries commands on the control files, without a trace
  load N                                  runs feed on a generated input of N blocks of 64 lines
  table da FILE, table ltl FILE           prints the table of an automaton, of a rule
  header NAME FILE                        prints an automaton as C tables
END
    else
        cat <<'END'
usage: ./rv-coverage WORDS              runs the program, and proves and builds it first if need be
       ./rv-coverage --unproved WORDS   answers before any proof, in a minute or two
       ./rv-coverage --help, --version

WORDS are one of these:

  BINDINGS TRACE         prints what `rv replay BINDINGS TRACE` has watched, and what it has not
  BINDINGS TRACE edges   the same, where each edge that was not taken is a finding
END
    fi && cat <<'END'

README.md says what a status means, docs/FORMATS.md has every text, limit and refusal.
END
}

# The lines of the kits that the README names, each of which has proved the program.
wanted_kits() {
    # shellcheck disable=SC2016
    grep -o '`rattle-kit-[^`]*`' "$top/README.md" 2>/dev/null | tr -d '`'
}

# The same on one line.
shown_kits() {
    wanted_kits | awk '{ printf "%s\047%s\047", (NR > 1 ? " or " : ""), $0 }'
}

# The version, which is the first heading of the changes, and the kit.
show_version() {
    version=$(sed -n 's/^## *//p' "$top/CHANGELOG.md" 2>/dev/null | head -n 1)
    printf '%s %s\nkit %s\n' "$command" "${version:-of no known version}" "$(shown_kits)"
}

# The rows of crates.txt of the program's crate and of the crates below it.
rows() {
    awk -v crate="$crate" '
        function reach(name, words, count, k) {
            if (name in is_reached || !(name in row)) return
            is_reached[name] = 1
            count = split(row[name], words, /[ \t:,]+/)
            for (k = 2; k <= count; k++) reach(words[k])
        }
        { sub(/[ \t\r]*(#.*)?$/, "") }
        NF { name = $1; sub(/:.*/, "", name); row[name] = $0; order[++last] = name }
        END { reach(crate); for (k = 1; k <= last; k++) if (order[k] in is_reached) print row[order[k]] }
    ' "$top/crates.txt" 2>/dev/null
}

# The folders of these crates, on one line.
folders() {
    rows | sed 's/[ \t:].*//; s/^/crates\//' | tr '\n' ' '
}

# In $folders: what a proof reads.
parts() {
    for folder in $folders; do
        for part in src specs proofs c; do
            [ ! -d "$top/$folder/$part" ] || printf '%s\n' "$folder/$part"
        done
    done
}

# Two lines: the sum of what the program is made from, and the sum of the program.
sums() (
    cd "$top" || exit
    {
        wanted_kits
        rows
        # shellcheck disable=SC2046
        find $(parts) -type f -print0 | LC_ALL=C sort -z | xargs -0 sha256sum
    } | sha256sum - "$made" 2>/dev/null
)

# Whether rt ci made the program, and nothing that it is made from was touched since that run began.
is_of_the_gate() (
    cd "$top" && [ -e "$made.by-rattle" ] || exit
    set -- -cnewer "$made"
    [ ! -e .git/rt-ci.lock ] || set -- "$@" -o -cnewer .git/rt-ci.lock
    # shellcheck disable=SC2046
    [ -z "$(find crates.txt $(parts) \( "$@" \) -print -quit 2>&1)" ]
)

# write_stamp SUMS SECOND: notes what the program was made from. What is touched from that second on is newer than the stamp.
write_stamp() {
    {
        mkdir -p "$top/out" &&
            printf '%s\n' "$folders" "$1" >"$stamp.$$" &&
            touch -d "@$2" "$stamp.$$" &&
            mv -f "$stamp.$$" "$stamp"
    } 2>/dev/null
}

# Whether the program was built from the sources as they stand. Where nothing was touched since the stamp, times tell, which is quick;
# else the sums do, so that a file that is written anew with the same text builds nothing.
is_current() {
    folders='' sources='' sum=''
    if [ -f "$stamp" ]; then
        { read -r folders && read -r sources && read -r sum; } <"$stamp"
        # shellcheck disable=SC2086
        touched=$(cd "$top" && find crates.txt README.md "$made" $folders \
            -name out ! -path 'crates/*/*/out' -prune -o -cnewer "$stamp" -print -quit 2>&1)
        [ -z "$touched" ] && [ -n "$folders" ] && [ -x "$program" ] && return 0
    fi
    second=$(date +%s)
    folders=$(folders)
    [ -f "$program" ] && [ -x "$program" ] || return 1
    found=$(sums)
    if [ "$found" != "$sources
$sum" ]; then
        # (a program older than its stamp is of the sources that the stamp knows)
        [ ! -f "$stamp" ] || [ -n "$(find "$program" -newer "$stamp")" ] || return 1
        is_of_the_gate || return 1
    fi
    write_stamp "$found" "$second"
    return 0
}

# lock NUMBER HOLDER: locks the file that is open by that number, where it has to wait for the holder.
lock() {
    flock -n "$1" || {
        say "waiting for $2"
        flock "$1"
    }
}

# Waits for another call that builds, and for a gate that runs here. The locks end with the process, however it ends.
take_turn() {
    exec 9<"$top/crates"
    lock 9 "another call that builds the program"
    [ -r "$gate" ] || return 0
    exec 8<"$gate"
    lock 8 "the gate, rt ci, that runs in this checkout"
}

# How many crates are proved at a time: one a processor, as far as memory goes. A control group may allow less of both.
lanes() {
    awk -v processors="$(nproc)" -v each="$memory_of_a_proof" '
        # the number behind the word that a line begins with, or where no word is given that begins the file; else what is given
        function number(file, word, otherwise, line, words, found) {
            found = ""
            while (found == "" && (getline line <file) > 0) {
                split(line, words)
                found = word == "" ? words[1] : words[1] == word ? words[2] : ""
            }
            close(file)
            return found ~ /^[0-9]+$/ ? found + 0 : otherwise
        }
        # the number that a file of the group begins with; where there is none, no limit
        function limit(file) {
            return number(group file, "", 1e18)
        }
        function least(one, other) {
            return one < other ? one : other
        }
        BEGIN {
            group = "/sys/fs/cgroup/"
            memory = number("/proc/meminfo", "MemAvailable:", 0) * 1024
            memory = least(memory, limit("memory.max") - number(group "memory.stat", "anon", 0))
            memory = least(memory, limit("memory/memory.limit_in_bytes") - number(group "memory/memory.stat", "total_rss", 0))
            quota = limit("cpu.max")
            lanes = least(processors, quota / number(group "cpu.max", quota, 100000))
            lanes = least(lanes, limit("cpu/cpu.cfs_quota_us") / number(group "cpu/cpu.cfs_period_us", "", 100000))
            lanes = int(least(lanes, memory / (each * 1048576)))
            print lanes < 1 ? 1 : lanes
        }'
}

# The crates that the log shows proved, in its order: "== NAME" stands above the whole answer on a crate, which says nothing of the
# proof where it is kept.
proved() {
    awk '
        function settle() { if (name != "" && name != "summary" && (is_proved || is_silent)) print name }
        /^== / { settle(); name = $2; is_proved = 0; is_silent = 1; next }
        /^logic=proved / { is_proved = 1 }
        !/^rt: / { is_silent = 0 }
        END { settle() }
    ' "$log"
}

# A line for each crate proved since the last call; on a terminal one line, written anew.
show_progress() {
    seconds=$(($(date +%s) - started))
    count=0
    for name in $(proved); do
        count=$((count + 1))
        [ -t 2 ] || [ "$count" -le "$shown" ] || say "proved $count of $all crates, $((seconds / 60)) min ($name)"
    done
    shown=$count
    [ ! -t 2 ] || printf '\r%s: proved %d of %d crates, %d min%s\033[K' "$command" "$count" "$all" $((seconds / 60)) "${name:+ ($name)}" >&2
}

# end_build SIGNAL: ends rt where it runs, which ends all that it started, and then this script by the signal that it was sent.
end_build() {
    [ -z "$builder" ] || {
        kill "$builder"
        wait "$builder"
    } 2>/dev/null
    [ ! -t 2 ] || echo >&2
    trap - "$1"
    kill -s "$1" $$
}

# run_rt WORDS: runs rt on the program's crate, and gives its status.
run_rt() {
    (
        cd "$top/crates/$crate" || exit
        # as rt ci does
        unset RT_ALLOW_C RT_BACKEND RT_SECONDS
        # shellcheck disable=SC2086
        exec $with_parent rt "$@"
    ) </dev/null >>"$log" 2>&1 8<&- 9<&- &
    builder=$!
    pause=0.1
    while kill -0 "$builder" 2>/dev/null; do
        sleep "$pause"
        show_progress
        [ "$seconds" -lt 3 ] || pause=1
    done
    wait "$builder"
}

# The last lines of the answer on each crate that failed, or else of the whole log.
show_failure() {
    awk '
        function show(first, last) {
            print line[first]
            for (k = last - first > 20 ? last - 19 : first + 1; k <= last; k++) print line[k]
        }
        { line[NR] = $0 }
        /^== / { name = $2; first[name] = NR }
        { last[name] = NR }
        name == "summary" && /: failed \(/ { sub(/:.*/, ""); failed[++count] = $0 }
        END {
            for (n = 1; n <= count; n++) show(first[failed[n]], last[failed[n]])
            if (!count && NR) show(NR > 20 ? NR - 20 : 1, NR)
        }' "$log" >&2
}

# How many crates there are to prove, and about how many minutes that takes.
measure() {
    # shellcheck disable=SC2086
    set -- $folders
    all=$#
    minutes=$(((all * seconds_of_a_crate + 30) / 60))
}

build() {
    mkdir -p "$top/out" "${program%/*}" 2>/dev/null
    rm -f "$log" 2>/dev/null
    if [ ! -w "${program%/*}" ] || ! (: >"$log") 2>/dev/null; then
        refuse "it is built in $top, and that cannot be written to"
    fi
    wants=0
    for folder in $folders; do
        [ -d "$top/$folder/out/incremental" ] || wants=$((wants + disk_of_a_crate))
    done
    [ "$wants" -gt "$disk_of_a_build" ] || wants=$disk_of_a_build
    free=$(df -Pk "$top" | sed -n '2s/.* \([0-9][0-9]*\)  *[0-9][0-9]*% .*/\1/p')
    # (some file systems do not tell)
    [ -z "$free" ] || [ "$((free / 1024))" -ge "$wants" ] ||
        refuse "the disk of $top has $((free / 1024)) MB left, and this build wants $wants MB"

    builder='' shown=0 seconds=0 started=$(date +%s) lanes=$(lanes) before=$(sums | head -n 1)
    measure
    say "building the program: $all crates to prove, $lanes at a time; about $minutes minutes on four processors where none is kept; meanwhile \`$called --unproved\` with the same words answers unproved"
    # (from here on nothing vouches for the program that is there, until a stamp is written again)
    rm -f "$stamp" "$program.by-rattle"
    # where this script is killed, rt ends too
    with_parent=
    ! setpriv --pdeathsig TERM true 2>/dev/null || with_parent='setpriv --pdeathsig TERM'
    for signal in HUP INT QUIT TERM; do
        # shellcheck disable=SC2064
        trap "end_build $signal" "$signal"
    done
    run_rt all check --jobs "$lanes" && run_rt run "$crate"
    [ ! -t 2 ] || echo >&2
    trap - HUP INT QUIT TERM
    # rt proves and links before it says that the program runs, which answers a refusal, since it is given no words
    if ! grep -q "^rt: running out/$crate" "$log" || [ ! -x "$program" ]; then
        show_failure
        refuse "it was not proved, or not linked; the whole log is $log"
    fi

    second=$(date +%s)
    found=$(sums)
    [ "${found%%
*}" = "$before" ] || refuse "the sources changed while it was built; run this again"
    write_stamp "$found" "$second"
}

# Refuses where the kit of the sources, or their list, is not there.
check_kit() {
    wanted=$(shown_kits)
    [ -n "$wanted" ] || refuse "no README.md beside it names the kit"
    command -v rt >/dev/null || refuse "there is no rt on the PATH, the command of the kit $wanted"
    kit=$(rt version </dev/null 2>&1 | head -n 1)
    wanted_kits | grep -qxF -e "$kit" || refuse "the kit on the PATH is '$kit', and $wanted is wanted"
    [ "$doing" != build ] || command -v flock >/dev/null || refuse "there is no flock on the PATH, a command of util-linux"
    if [ -z "$folders" ] || [ ! -d "$top/crates/$crate" ]; then
        refuse "crates.txt in $top names no crate $crate"
    fi
}

# run_program WORDS: becomes the program. A terminal is shown what is not seen in what it prints, since a name of a file may have any
# bytes, and what to do about a refusal or a failed write. (-I and -S: nothing of the folder where one stands is read; where standard
# input is a folder no Python begins, and its status, 1, is that of a failure)
run_program() {
    if { [ -t 1 ] || [ -t 2 ]; } && [ ! -d /dev/stdin ] && [ -r "$top/tools/lib/rv_terminal.py" ] && command -v python3 >/dev/null; then
        exec python3 -I -S -B "$top/tools/lib/rv_terminal.py" --called "$command" "$called" "$program" "$@"
    fi
    exec "$program" "$@"
}

# answer_unproved WORDS: answers by rt try of the kit, which reads the sources and writes nothing here, so that it need not wait for
# another call or for a gate. Where the program is proved already that answers.
answer_unproved() {
    if is_current; then
        say "the program is proved already, and answers"
        run_program "$@"
    fi
    doing=try
    check_kit
    command -v python3 >/dev/null || refuse "there is no python3 on the PATH"
    [ -r "$top/tools/lib/rv_unproved.py" ] || refuse "there is no $top/tools/lib/rv_unproved.py"
    # (no Python begins with a folder as its input)
    [ ! -d /dev/stdin ] || exec <&-
    measure
    exec python3 -I -S -B "$top/tools/lib/rv_unproved.py" "$command" "$crate" "$called" "$all" "$minutes" "$@"
}

called=$0
case $#:${1-} in
1:--help | 1:-h)
    show_forms || exit 4
    exit 0
    ;;
1:--version)
    show_version || exit 4
    exit 0
    ;;
1:--unproved)
    show_forms >&2
    say "--unproved wants words behind it"
    exit 2
    ;;
*:--unproved)
    shift
    answer_unproved "$@"
    ;;
0:)
    [ ! -t 2 ] || show_forms >&2
    ;;
esac
if ! is_current; then
    check_kit
    take_turn
    is_current || build
    exec 8<&- 9<&-
fi
run_program "$@"
