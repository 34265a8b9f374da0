# What the launchers `sdls` and `sdls_text` share: bash reads this file. In a clone they prove and build the program
# first if a source of it has changed. In a folder that `./install` made they need no kit.
#
# Standard input, standard output and the exit status are the program's. On standard error a launcher prints how far
# building is, that a word reads from a terminal, what is wrong with the words if the status is 2, and a sentence for
# people if `sdls` ends with a status from 3 to 8. Its own statuses are 70 (the program could not be built), 71 (the
# folder or the image could not be locked) and 75 (another unit holds one of them).
set -u
parts=$(cd "$(dirname "${BASH_SOURCE[0]}")" && pwd)
name=
program=
status=0
was_image=

# Prints a line for people.
say() {
    echo "$name: $*" >&2
}

# Prints why nothing is started, and ends with this status.
give_up() {
    say "$2"
    exit "$1"
}

# The two launchers call this with their name, `sdls` or `sdls_text`, and their words.
launch() {
    name=$1
    shift
    case "$# ${1-}" in
    "1 --help") print_help && exit 0 ;;
    "1 --version") print_version && exit 0 ;;
    esac
    find_program
    # the lock is taken when the program is there: a build may take long, and needs none
    case "$name $# ${1-}" in
    "sdls 1 init" | "sdls 1 run" | "sdls 1 stat")
        find_closed
        keep_others_out
        ;;
    esac
    find_input "${1-}"
    find_fault "$@"
    announce_input "${1-}"
    run_through exec "$program" "$@"
    if [ "$status" = 2 ]; then
        say "${fault:-these words are none that it serves}; see \`$name --help\`"
    elif [ "$status" = 5 ] && [ -n "$was_image" ] && is_held_elsewhere; then
        turn_away "this image, by a name in another folder"
    elif [ "$name" = sdls ]; then
        explain "${1-}"
    fi
    end_alike
}

# Sets `program`. In a clone it is built first if needed.
find_program() {
    local crate=$name
    [ "$name" = sdls ] && crate=sdls_program
    if [ -f "$parts/crates.txt" ]; then
        program=$parts/crates/$crate/out/$crate
        bring_up_to_date "$crate"
    else
        program=$parts/$crate
    fi
}

# -- running --------------------------------------------------------------------------------------------------------

# The signals that are handed on.
signals="HUP INT QUIT TERM USR1 USR2"

# Runs a command with the caller's streams, hands signals on to it, and waits until it has ended. Sets `status`.
run_through() {
    local signal now
    child= caught=
    for signal in $signals; do
        trap "hand_on $signal" "$signal"
    done
    # bash has a command in the background ignore SIGINT and SIGQUIT, and read nothing, unless it is given the opposite
    if [ -e /dev/fd/0 ]; then
        (trap - $signals && "$@") <&0 &
    else
        (trap - $signals && "$@") <&- &
    fi
    child=$!
    [ -z "$caught" ] || hand_on "$caught"
    while true; do
        caught=
        wait "$child" 2>/dev/null
        now=$?
        # 127: the wait that a signal ended had its status already
        [ "$now" = 127 ] && [ "$status" != 0 ] || status=$now
        [ -n "$caught" ] || break
    done
    trap - $signals
}

# Notes a signal, and sends it to the command that runs.
hand_on() {
    caught=$1
    [ -z "$child" ] || kill -s "$1" "$child" 2>/dev/null
}

# Ends as the command ended: by the same signal, or with its status.
end_alike() {
    local signal
    if [ "$status" -gt 128 ] && signal=$(kill -l $((status - 128)) 2>/dev/null); then
        case " $signals " in
        *" $signal "*) kill -s "$signal" $$ ;;
        esac
    fi
    exit "$status"
}

# Takes the folder's lock without waiting. The program inherits the open folder, so it stays locked until the program
# has ended, even if this script is killed before. The image may have a name in another folder too, and two units on one
# image would use a number twice. The program locks it, so here its lock is only tried, and let go at once.
keep_others_out() {
    command -v flock >/dev/null || give_up 71 "nothing was started, for there is no command flock to lock the folder"
    { exec 9<.; } 2>/dev/null || give_up 71 "nothing was started, for this folder could not be opened to lock it"
    take_lock 9 "this folder"
    # who may not read the image cannot run a unit on it: the program will fail to open it
    if [ -f unit.img ] && [ -r unit.img ]; then
        { exec 8<unit.img; } 2>/dev/null ||
            give_up 71 "nothing was started, for unit.img could not be opened to lock it"
        take_lock 8 "this image, by a name in another folder"
        drop_pages
        exec 8<&-
    fi
    had_image= was_image=$(image_stamp)
    [ -s unit.img ] && had_image=1
}

# What changes if something is written to the image.
image_stamp() {
    stat -L -c '%d %i %s %y' unit.img 2>/dev/null
}

# Whether another unit holds the image, and nothing was written to it since the program was started: then the program
# has not opened it, and nothing was done.
is_held_elsewhere() {
    [ -r unit.img ] && [ "$(image_stamp)" = "$was_image" ] || return 1
    flock -n -E 75 unit.img true 2>/dev/null
    [ "$?" = 75 ]
}

# Says that another unit holds the folder or the image, and ends.
turn_away() {
    give_up 75 "nothing was started, for another unit holds $1: call again when it has ended"
}

# Has the system forget what it holds of the image in memory, so that the program reads what is on the disk. After a
# sync that failed, memory may have octets that the disk never got, and nothing says so to a process that begins later.
drop_pages() {
    dd if=unit.img of=/dev/null iflag=nocache count=0 status=none 2>/dev/null ||
        give_up 71 "nothing was started, for the system's copy of unit.img in memory could not be dropped by dd"
}

# Notes which stream is closed: the image would then be opened by its number, which the program refuses.
find_closed() {
    closed=
    [ -e /dev/fd/0 ] || closed="standard input"
    [ -e /dev/fd/1 ] || closed="standard output"
}

# Locks the open file with this number.
take_lock() {
    flock -n "$1"
    case $? in
    0) ;;
    1) turn_away "$2" ;;
    *) give_up 71 "nothing was started, for $2 could not be locked" ;;
    esac
}

# -- words for people -----------------------------------------------------------------------------------------------

# Sets `reads` to what the word reads from standard input, and `call` to how it reads a file. Of a word that reads none
# both are empty.
find_input() {
    reads= call=
    case "$name $1" in
    "sdls check") reads="an AOS transfer frame" call="sdls check KEY < FRAME" ;;
    "sdls init") reads="a plan" call="sdls init < PLAN" ;;
    "sdls run") reads="recorded input" call="sdls run < INPUT > ANSWERS" ;;
    "sdls audit") reads="a recording of runs" call="sdls audit < RECORDING" ;;
    "sdls_text records") reads="lines of text" call="sdls_text records < TEXT > INPUT" ;;
    "sdls_text show") reads="recorded input" call="sdls_text show < INPUT" ;;
    "sdls_text answers") reads="answers" call="sdls_text answers < ANSWERS" ;;
    "sdls_text state") reads="what \`sdls stat\` prints" call="sdls_text state < STATE" ;;
    "sdls_text plan") reads="a plan" call="sdls_text plan < PLAN" ;;
    esac
}

# Sets `fault` to what is wrong with the words, or to nothing. The program alone decides which words it serves. No word
# is printed that may be the digits of a key.
find_fault() {
    local LC_ALL=C
    fault=
    case "$name ${1-}" in
    "$name ") fault="a word is missing" ;;
    "sdls check") find_key_fault "$@" ;;
    "sdls drill") find_number_fault "$@" ;;
    "sdls init" | "sdls stat" | "sdls run" | "sdls audit" | "sdls_text records" | "sdls_text show" | \
        "sdls_text state" | "sdls_text plan")
        [ "$#" = 1 ] || fault="$1 takes no further word${call:+, and reads standard input: \`$call\`}"
        ;;
    "sdls_text answers")
        [ "$#" = 1 ] || [ "$# $2" = "2 --json" ] || fault="behind answers stands --json or nothing"
        ;;
    "sdls_text recording") [ "$#" -gt 1 ] || fault="recording needs names of files" ;;
    "$name --help" | "$name --version") fault="$1 stands alone" ;;
    *)
        fault="the first word is none that it serves"
        [[ $1 =~ ^[a-z-]{1,20}$ ]] && fault="there is no word \`$1\`"
        ;;
    esac
}

# What is wrong with the words of `check`.
find_key_fault() {
    local digits="32 or 64 hexadecimal digits"
    if [ "$#" = 1 ]; then
        fault="check needs a KEY of $digits"
    elif [ "$#" -gt 2 ]; then
        fault="check takes one further word, a KEY of $digits"
    elif [[ $2 = *[![:xdigit:]]* ]]; then
        fault="a KEY has $digits, and this one has another character"
    elif [ "${#2}" != 32 ] && [ "${#2}" != 64 ]; then
        fault="a KEY has $digits, and this one has ${#2}"
    fi
}

# What is wrong with the words of `drill`.
find_number_fault() {
    local drill=drill
    [ "${2-}" = link ] && drill="drill link" && shift
    if [ "$#" = 1 ]; then
        fault="$drill needs a number of frames, 1 to 100000"
    elif [ "$#" -gt 2 ]; then
        fault="$drill takes one further word, a number of frames"
    elif ! [[ $2 =~ ^[1-9][0-9]{0,5}$ ]] || [ "$2" -gt 100000 ]; then
        fault="the number of frames is 1 to 100000, without a leading zero"
    fi
}

# Says that the word reads from standard input, if that is a terminal, and if the program will read.
announce_input() {
    [ -n "$reads" ] && [ -z "$fault" ] && [ -t 0 ] || return 0
    case "$name $1" in
    "sdls init") [ -z "$had_image" ] || return 0 ;;
    "sdls run") [ -e unit.img ] || return 0 ;;
    esac
    say "$1 reads $reads from standard input, which is a terminal: Ctrl-D ends it, and \`$call\` reads a file"
}

# Says in one sentence what happened and what to do, by the word, the status and a look at the folder.
explain() {
    case "$1 $status" in
    "audit 3") say "standard input is no recording of runs from the offset on that standard output gives: make one by" \
        "\`sdls_text recording FILE..\`" ;;
    "init 3") say "standard input is no plan, and no image was made: correct the line that standard output names" ;;
    "run 3") say "$(unread_input)" ;;
    "init 4") say "standard input could not be read, and no image was made: call init again" ;;
    "run 4") say "standard input could not be read to its end: give the records without an answer to a further run" ;;
    *" 4") say "standard input could not be read: call again" ;;
    "init 5" | "run 5" | "stat 5") say "$(site_fault "$1")" ;;
    *" 5") say "standard output could not be written: what was printed is incomplete" ;;
    "init 6") say "memory ran out, and no image was made: call init again with more memory" ;;
    "run 6") say "memory ran out: give the records without an answer to a further run with more memory" ;;
    *" 6") say "memory ran out, and nothing is lost: call again with more memory" ;;
    "init 7") say "this folder has an image already, which was left as it is: make another unit in another folder," \
        "from a plan with other keys" ;;
    "run 7" | "stat 7") say "$(refused_image "$1")" ;;
    "run 8") say "the run had its 1,048,576 entries, the most of one run: give the records without an answer to a" \
        "further run, and know that some of them may have been done" ;;
    esac
}

# Why `run` ended with status 3.
unread_input() {
    local front
    # a file is looked at again from its beginning; of a pipe nothing is known here
    if [ -f /dev/stdin ] && [ -r /dev/stdin ] && front=$(head -c 8 /dev/stdin | tr -d '\0') && [ "$front" != SDLSREC1 ]
    then
        echo "standard input is not a recorded input, which begins with SDLSREC1: make one from text by" \
            "\`sdls_text records\`"
    else
        echo "standard input is not a recorded input from the offset on that End gives: correct it there, and give" \
            "the records without an answer to a further run"
    fi
}

# Why a word that uses the image ended with status 5.
site_fault() {
    if [ -L unit.img ] && [ ! -e unit.img ]; then
        echo "unit.img is a link to a file that is not there: mount the disk that holds it, and never put a copy in" \
            "its place"
    elif [ -e unit.img ] && [ ! -f unit.img ]; then
        echo "unit.img is no plain file: call again in the folder of a unit"
    elif [ -e unit.img ] && [ ! -r unit.img ]; then
        echo "you may not read unit.img: call again as its owner"
    elif [ -e unit.img ] && [ ! -w unit.img ]; then
        echo "you may not write unit.img: call again as its owner, on a file system that can be written"
    elif [ "$1" = init ] && [ ! -e unit.img ] && [ ! -w . ]; then
        echo "you may not write in this folder: call init again in a folder of your own"
    elif [ -n "$closed" ] && [ -e unit.img ] && [ "$1 $had_image" != "init " ]; then
        echo "$closed is closed, so unit.img was not opened and is as it was: call again with that stream open"
    elif [ "$1" = init ] && [ -n "$had_image" ]; then
        echo "the disk or standard output failed, and the image that was here before was left as it is: do not" \
            "remove it; $(after_disk)"
    elif [ "$1" = init ]; then
        echo "the disk or standard output failed, and no image was here before: remove unit.img if it is here now," \
            "and call init again; $(after_disk)"
    elif [ "$1" = run ]; then
        echo "the disk or standard output failed: repair that, look at the state by \`sdls stat\`, and know that" \
            "records without an answer may have been done; $(after_disk)"
    else
        echo "the disk or standard output failed: repair that, and call stat again; $(after_disk)"
    fi
}

# What comes before the next call if the disk failed.
after_disk() {
    echo "if it was the disk, restart the machine, or unmount and mount the file system, before the next call"
}

# Why `run` or `stat` ended with status 7.
refused_image() {
    if [ ! -e unit.img ]; then
        echo "there is no unit.img in this folder: call again in the folder of a unit; if one was here, see" \
            "OPERATING.md, \"If an image is lost\"; a new unit is made by \`sdls init < PLAN\`, from a plan that has" \
            "made none"
    elif [ "$1" = stat ]; then
        echo "unit.img is no valid image and was left as it is: standard output has the offset of the failed check," \
            "and OPERATING.md, \"If an image is lost\", says how a new unit is made"
    else
        echo "unit.img is no valid image and was left as it is: End has the offset of the failed check," \
            "and OPERATING.md, \"If an image is lost\", says how a new unit is made"
    fi
}

# Prints the program's name, and the commit and the kit that it is built from.
print_version() {
    echo "$name $(read_version)"
}

# What `print_version` prints behind the name; `./install` has kept it.
read_version() {
    local commit kit
    [ -f "$parts/version" ] && cat "$parts/version" && return
    commit=$(git -C "$parts" describe --always --dirty --abbrev=12 --exclude='*' 2>/dev/null) || commit=unknown
    kit=$(rt version 2>/dev/null) || kit="no kit on the path"
    echo "commit $commit, $kit"
}

# Prints the page of `sdls_text`. It stands in the program's source; `./install` has kept a copy.
print_text_help() {
    if [ -f "$parts/sdls_text.help" ]; then
        cat "$parts/sdls_text.help"
    else
        sed -n '/^const HELP/,/";$/p' "$parts/crates/sdls_text/src/main.rt" | sed '1d;$s/";$//'
    fi
}

# Prints what each word reads and writes, and an example.
print_help() {
    if [ "$name" = sdls_text ]; then
        print_text_help
    else
        cat <<'HELP'
usage: sdls check KEY < FRAME
       sdls init < PLAN
       sdls stat
       sdls run < INPUT > ANSWERS
       sdls drill N
       sdls drill link N
       sdls audit < RECORDING
A space link security unit: a profile of CCSDS 355.0-B-2, and the procedures of 355.1-B-1 by purpose, in own formats.
It works on the file unit.img in the current folder.

  check KEY    reads one AOS transfer frame, and prints its data field or the first check that failed;
               KEY has 32 or 64 hexadecimal digits
  init         reads a plan, and makes unit.img, the image of a unit
  stat         prints the state in unit.img; repairs what a crash tore, migrates an old image
  run          reads recorded input, serves it with unit.img, and writes an answer for each record;
               both are octets, which `sdls_text` makes from text and prints as text
  drill N      protects and opens N generated frames with two units in memory, and prints the counts
  drill link N the same over a link between the two that loses, repeats and delays frames
  audit        reads the answers that runs wrote, as `sdls_text recording` frames them, and prints whether a number of a
               key was used twice, or accepted twice; it needs no unit.img
  --help       prints this page
  --version    prints the commit and the kit that the program is built from

Status: 0 done; 1 the frame is refused, or a number was used or accepted twice; 2 other words; 3 the input is at fault;
4 standard input could not be read; 5 the disk or standard output failed; 6 out of memory; 7 the image is there already,
or is none; 8 the run has its most entries. Of the launcher: 70 the program could not be built; 71 the folder or the
image could not be locked, or its copy in memory not dropped; 75 another unit holds one of them.

Example:
  sdls init < examples/plan-two-links.txt
  sdls run < examples/protect-one.bin > answers.bin
  sdls_text answers < answers.bin
HELP
    fi
}

# -- building, in a clone -------------------------------------------------------------------------------------------

# Proves and builds the program of this crate, unless that was done and no source of it has changed since.
bring_up_to_date() {
    folder=$parts/crates/$1
    stamp=$folder/out/launched
    stack=$(crates_below "$1")
    is_fresh && return
    command -v rt >/dev/null ||
        give_up 70 "the program has to be built, and the kit's command rt is not on the path"
    # one build at a time; who waited for another finds the program there
    exec 7<"$parts/crates.txt"
    if ! flock -n 7; then
        say "waiting for another build to end"
        run_through flock 7
        [ "$status" = 0 ] || end_alike
    fi
    if ! is_fresh; then
        build "$1"
    fi
    exec 7<&-
}

# The lines of crates.txt of this crate and of all that it stands on.
crates_below() {
    awk -v top="$1" '
        { sub(/#.*/, "") }
        split($0, halves, ":") == 2 {
            split(halves[1], words, " ")
            names[++count] = words[1]
            libraries[count] = halves[2]
            known[words[1]] = 1
        }
        END {
            wanted[top] = 1
            do {
                found = 0
                for (i = count; i > 0; i--) {
                    if (!(names[i] in wanted) || i in printed) continue
                    print names[i] ":" libraries[i]
                    printed[i] = found = 1
                    for (j = split(libraries[i], words, " "); j > 0; j--)
                        if (words[j] in known) wanted[words[j]] = 1
                }
            } while (found)
        }' "$parts/crates.txt"
}

# Finds the sources of the program; the words say what is printed of each.
find_sources() {
    local crate folders=()
    for crate in $(sed 's/:.*//' <<<"$stack"); do
        folders+=("crates/$crate/src" "crates/$crate/specs" "crates/$crate/proofs")
    done
    cd "$parts" && find "${folders[@]}" -type f "$@" 2>/dev/null
}

# A sum of the sources' names, lengths and times.
sum_of_times() {
    (echo "$stack" && find_sources -printf '%p %s %T@\n' | LC_ALL=C sort) | sha256sum
}

# A sum of the sources' names and octets.
sum_of_octets() {
    (echo "$stack" && find_sources -print0 | LC_ALL=C sort -z | (cd "$parts" && xargs -0 sha256sum)) | sha256sum
}

# Whether the program is the one that was built from these sources. A source that was added, removed, changed or given
# another name changes both sums; one that has its old octets and another time, the first alone.
is_fresh() {
    local times octets built
    [ -x "$program" ] && [ -f "$stamp" ] || return 1
    { read -r times && read -r octets && read -r built; } <"$stamp" || return 1
    [ "$built" = "$(sha256sum <"$program")" ] || return 1
    [ "$times" = "$(sum_of_times)" ] && return
    times=$(sum_of_times)
    [ "$octets" = "$(sum_of_octets)" ] && printf '%s\n' "$times" "$octets" "$built" >"$stamp"
}

# Proves the crates and builds the program, as the gate does, and tries it on its stored input. What is proved is kept
# beside the kit, so after an interrupt the next call continues.
build() {
    local times octets teller count made
    count=$(wc -l <<<"$stack")
    say "proves and builds the program first: $count crates; from nothing this takes long, and what is proved is kept"
    mkdir -p "$folder/out"
    scratch=$(mktemp -d) && mkfifo "$scratch/said" || give_up 70 "there is no place for what building prints"
    trap 'rm -rf "$scratch"' EXIT
    times=$(sum_of_times)
    octets=$(sum_of_octets)
    copy_sources || give_up 70 "there is no place for a copy of the sources, or one of them could not be read"
    made=$scratch/clone/crates/$1/out/$1
    print_progress "$count" <"$scratch/said" &
    teller=$!
    run_through prove_all </dev/null >"$scratch/said" 2>&1
    wait "$teller"
    if [ "$status" -gt 128 ]; then
        say "building was interrupted; the next call continues it"
        rm -rf "$scratch"
        end_alike
    elif [ "$status" != 0 ] || ! { cp "$made" "$program.new" && mv "$program.new" "$program"; }; then
        cat "$scratch/faults" >&2
        give_up 70 "the program could not be built; all that rt printed is in $folder/out/build.log"
    fi
    # sources that changed while the program was built differ from these sums
    printf '%s\n' "$times" "$octets" "$(sha256sum <"$program")" >"$stamp"
    rm -rf "$scratch"
    trap - EXIT
}

# Copies the program's crates into a folder of their own, without the edits that the gate tries. There rt judges them as
# it judges the repository, and each crate is proved over the statements of those below.
copy_sources() {
    local crate part to=$scratch/clone
    # rt wants the top of a repository
    mkdir -p "$to/.git" "$to/crates" && cp "$parts/HANDLES" "$to" && echo "$stack" >"$to/crates.txt" || return
    for crate in $(sed 's/:.*//' <<<"$stack"); do
        mkdir "$to/crates/$crate" || return
        for part in src specs proofs stdin stdout args status data; do
            [ ! -e "$parts/crates/$crate/$part" ] || cp -r "$parts/crates/$crate/$part" "$to/crates/$crate" || return
        done
    done
}

# Becomes rt, which proves this copy and runs the program as the gate does.
prove_all() {
    cd "$scratch/clone" && exec rt ci
}

# Reads what rt prints: of each crate a block that begins with its name, and whether it was proved. Says how many crates
# are proved. Keeps all that was printed, and apart from the rest what is said of crates that were not proved.
print_progress() {
    local line crate block= proved=0
    : >"$scratch/faults"
    while IFS= read -r line; do
        echo "$line" >&3
        case $line in
        "== "*) block= ;;
        "rt: "*" is kept: "*) proved=$((proved + 1)) ;;
        "rt: "*" NOT PROVED"*)
            printf '%s%s\n' "$block" "$line" >>"$scratch/faults"
            block=
            ;;
        "rt: "*" proved")
            proved=$((proved + 1))
            crate=${line#rt: }
            say "$proved of $1 proved, ${crate% proved}"
            block=
            ;;
        "rt: "*"; waiting for it") say "${line#rt: }" ;;
        *) block+=$line$'\n' ;;
        esac
    done 3>"$folder/out/build.log"
    printf '%s' "$block" >>"$scratch/faults"
}
