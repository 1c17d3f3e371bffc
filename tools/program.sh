# What the scripts of the programs share. A script finds itself through symbolic links as `self`, reads
# this file, says in `usage` which words it takes, and ends with
#   0  the output was delivered whole          2  wrong use, or a program that cannot be built
#   1  a refused file, or a faulty text        3  output that could not be delivered
# What a program prints is taken through a pipe and not through a file: no full disk can cut it there.
top=${self%/*} name=${self##*/}
LC_ALL=C && export LC_ALL
newline='
'
# nothing of this is to come from the environment
file= bytes= fault=

# ends with this status, and with this line on standard error
stop() {
    stopped=$1
    shift
    printf '%s: %s\n' "$name" "$*" >&2
    exit "$stopped"
}

# delivers what this command prints. That cat does it has a reason: a closed pipe would end the shell itself
# by a signal, and with no status of ours. What cat says of a failure ends with the reason
deliver() {
    (: 3>&1) 2>/dev/null || stop 3 "the output could not be delivered: standard output is closed"
    { why=$("$@" 2>/dev/null | cat 2>&1 >&3); delivered=$?; } 3>&1
    why=${why##*: }
    [ "$delivered" -eq 0 ] || stop 3 "the output could not be delivered whole: ${why:-the pipe is closed}"
}

# the script's words and the comment at its start, as an answer to --help
help() {
    text=$(echo "usage: ./$name${usage:+ $usage}" && sed -n '2,/^[^#]/s/^# \{0,1\}//p' "$self") || exit 2
    deliver printf '%s\n' "$text"
    exit 0
}

# takes the words of a program that takes one FILE, into `file`: empty if there is none
take_file() {
    file=
    for word in "$@"; do
        case $word in
        -h | --help) help ;;
        '') stop 2 "an empty word where a FILE is wanted" ;;
        -?*) stop 2 "no such option: $word ('./$name --help' says what there is; a file of that name is ./$word)" ;;
        esac
        [ -z "$file" ] || stop 2 "one FILE at most is wanted: ./$name $usage"
        file=$word
    done
}

# tests the input before anything is built: what cannot be read must not pass for an empty file, which
# gets a refusal. Without a FILE, a terminal would wait for bytes that nobody types
test_input() {
    if [ -z "$file" ] && [ -t 0 ]; then
        echo "usage: ./$name $usage" >&2
        echo "       There is no input. './$name --help' says what it does." >&2
        exit 2
    fi
    if [ -z "$file" ] || [ "$file" = - ]; then
        file=-
        (: 3<&0) 2>/dev/null || stop 2 "standard input is closed"
        [ ! -d /dev/stdin ] || stop 2 "a folder, not a file, on standard input"
    elif [ ! -e "$file" ]; then
        stop 2 "no such file: $file"
    elif [ -d "$file" ]; then
        stop 2 "a folder, not a file: $file"
    elif [ ! -r "$file" ]; then
        stop 2 "the file cannot be read: $file"
    fi
}

# the crates of a program, those that it stands on among them, in the order of crates.txt
crates_of() {
    [ -r "$top/crates.txt" ] || { echo missing && return; }
    awk -v program="$1" '
        { sub(/#.*/, ""); at = index($0, ":") }
        at {
            # behind the name other words may stand, as staticlib
            split(substr($0, 1, at - 1), words, " ")
            crate = words[1]
            list[++n] = crate
            on[crate] = substr($0, at + 1)
        }
        END {
            if (program in on) reached[program] = 1
            do {
                more = 0
                for (i = 1; i <= n; i++) {
                    if (!(list[i] in reached)) continue
                    k = split(on[list[i]], below, " ")
                    for (j = 1; j <= k; j++)
                        if ((below[j] in on) && !(below[j] in reached)) { reached[below[j]] = 1; more = 1 }
                }
            } while (more)
            for (i = 1; i <= n; i++) if (list[i] in reached) print list[i]
        }' "$top/crates.txt"
}

# what rt makes of a crate, as a file and in words: a program, or of exports_c the archive for other languages
made_of() {
    case $1 in exports_c) echo "crates/$1/out/lib$1.a" ;; *) echo "crates/$1/out/$1" ;; esac
}
called() {
    case $1 in exports_c) echo "the archive of the library" ;; *) echo "the program $1" ;; esac
}

# the folders that rt reads of its crates, and not what rt itself leaves beside them
sources_of() {
    for crate in $(crates_of "$1"); do
        echo "crates/$crate/src"
        for part in specs proofs; do
            [ ! -d "$top/crates/$crate/$part" ] || echo "crates/$crate/$part"
        done
    done
}

# why it has to be built; nothing if it is there and no source of its crates is newer. A file that was
# removed or renamed shows in its folder
why_build() {
    made=$(made_of "$1")
    if [ ! -f "$top/$made" ]; then
        echo "$(called "$1") is not built"
        return
    fi
    newer=$(cd "$top" && find -L crates.txt $(sources_of "$1") -newer "$made" -print 2>/dev/null) ||
        { echo "a source of $(called "$1") is missing" && return; }
    [ -z "$newer" ] || echo "${newer%%"$newline"*} is newer than $(called "$1")"
}

# shows each crate as it is proved, of so many crates; if rt fails, the errors too. The rest of what the
# prover says is long, and stands in target/build.log
show_build() {
    proved=0 crate= built=no said=
    while IFS= read -r line; do
        case $line in
        'crate '*': '*) crate=${line#crate } crate=${crate%%:*} ;;
        'logic=proved '*)
            proved=$((proved + 1))
            echo "$name: crate $proved of $1, $crate proved" >&2
            ;;
        'rt: running '*) built=yes ;;
        'rt: ended 0') return 0 ;;
        'rt: ended '*)
            # where the program ran, that status is its own
            [ "$built" = no ] || return 0
            printf '%s' "$said" >&2
            return 1
            ;;
        'rt: chose '*) ;;
        'rt: '* | *': error'* | *': it is not proved '*) said=$said$line$newline ;;
        esac
    done
    return 1
}

# builds it for this reason, in one script at a time: those of one pipe would else build in one folder at
# once. What is made is then given the time at which the build began: a source edited meanwhile is newer,
# and one that rt found unchanged is not
build() (
    command -v rt >/dev/null 2>&1 || stop 2 "$2, and rt, the Rattle toolchain that builds it, is not here"
    made=$(made_of "$1") lock=$top/target/lock verb=run
    case $1 in exports_c) verb=lib ;; esac
    { mkdir -p "$top/target" && true >>"$lock"; } 2>/dev/null || stop 2 "$2, and $top/target cannot be written"
    exec 9>>"$lock"
    if command -v flock >/dev/null 2>&1 && ! flock -n 9; then
        echo "$name: $2; waiting for a build that is under way here" >&2
        flock 9
        [ -n "$(why_build "$1")" ] || exit 0
    fi
    touch "$lock"
    crates=$(crates_of "$1" | wc -l)
    echo "$name: $2; building it ($((crates)) crates, in some minutes if none is proved yet)" >&2
    # rt runs a program that it has built: with no input, and what it prints goes the way of the rest
    { cd "$top/crates/$1" && rt "$verb"; echo "rt: ended $?"; } 2>&1 </dev/null | tee "$top/target/build.log" |
        show_build "$((crates))" && [ -f "$top/$made" ] && touch -r "$lock" "$top/$made" ||
        stop 2 "$(called "$1") could not be built ($top/target/build.log has more)"
)

# sees that what is made of these crates is there and not older than their sources
ready() {
    for crate in "$@"; do
        why=$(why_build "$crate")
        [ -z "$why" ] || build "$crate" "$why" || exit 2
    done
}

# makes a run file of the text form that this command prints, into `bytes`: as octal escapes, since a
# shell's variable holds no byte 0. A text with a fault gets no bytes but a line, which ends up in `fault`
make_bytes() {
    bytes=$("$@" | "$top/$(made_of drrmake)" 2>&1 | od -A n -v -t o1 | tr -d '\n' | sed 's/ /\\/g') fault=
    case $bytes in
    # a run file starts with its count of flows, 1 to 16 in two bytes; what is said of a fault with 'line '
    '\0'[012][0-7]'\000'*) whole_bytes ;;
    '\154\151\156\145\040'*) fault=$(printf "$bytes") ;;
    *) false ;;
    esac || stop 3 "the run file that drrmake makes was not taken whole"
}

# whether there are as many bytes as the run file's header states, in its bytes 12 to 15
whole_bytes() {
    set -- $(printf '%s' "$bytes" | cut -c 49-64 | tr '\\' ' ')
    [ $# -eq 4 ] && [ $((0$1 + 256 * 0$2 + 65536 * 0$3 + 16777216 * 0$4)) -eq $((${#bytes} / 4)) ]
}

# the text in FILE, or on standard input; one that is read in part only is given a fault
text_of_file() {
    cat "$file" || printf '\nnot read to its end\n'
}

# makes a run file of that text; a fault ends the script
make_from_file() {
    ready drrmake
    make_bytes text_of_file
    where=
    [ "$file" = - ] || where="$file, "
    [ -z "$fault" ] || stop 1 "$where$fault"
}

# runs a command on the run file: the one that was made, FILE, or standard input
on_run_file() {
    if [ -n "${bytes:-}" ]; then
        printf "$bytes" 2>/dev/null | "$@"
    elif [ "$file" = - ]; then
        "$@"
    else
        "$@" <"$file"
    fi
}

# takes what a command prints into `text`, and its last line into `last`; its status comes behind the
# text, so that a program which was cut short is seen to be
take_text() {
    text=$("$@" && echo 'ended well')
    case $text in
    "ended well") text= last= ;;
    *"${newline}ended well")
        text=${text%ended well} last=${text%"$newline"}
        last=${last##*"$newline"}
        ;;
    *) stop 3 "what the program prints was not taken whole" ;;
    esac
}

# delivers `text`; where that is the line of a refusal, says in words what its number means
deliver_text() {
    [ -n "$text" ] || stop 3 "the program prints nothing"
    deliver printf '%s' "$text"
    case $last in 'R '*) ;; *) exit 0 ;; esac
    set -- $last
    meaning=$(sed -n "s/^$2 //p" "$top/tools/refusals.txt" | sed "s/ N / $3 /")
    stop 1 "refused, $2: $meaning"
}
