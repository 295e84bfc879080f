# What the shell scripts of bin/ share. Each of them reads this file after it has set `share`, the folder that this file lies in.
me=${0##*/}

# Ends with a line for the standard error, and a code, 2 if none is given.
fail() {
    printf '%s\n' "$me: $1" >&2
    exit "${2:-2}"
}

# Ends for a wrong word: what is wrong with it, and the first line of the text `usage`.
wrong() {
    fail "$1
${usage%%"
"*}"
}

# Prints a text to the standard output and ends.
say() {
    printf '%s\n' "$1" 2> /dev/null && exit
    fail "the standard output can't be written" 7
}

# Starts a companion in Python: the folder $1 of share, over the other words.
start() {
    command -v python3 > /dev/null || fail 'python3 is not on the path; version 3.9 or later is needed' 126
    export IBM1620_ME="$me"
    folder=$share/$1
    shift
    exec python3 -I -B "$folder" "$@"
}

# Prints the version, from the one file that has it, and ends.
say_version() {
    { read -r number < "$share/version"; } 2> /dev/null || fail 'the file of the version is missing; install it again' 126
    say "ibm1620 $number"
}

# Makes a folder in $1, by this beginning of its name, as the variable `work`. It is removed at the end, also if a signal is the end.
make_work() {
    work=$(mktemp -d "$1/$2-XXXXXX") || exit 126
    trap 'rm -rf "$work"' EXIT
    trap 'exit 130' INT
    trap 'exit 143' TERM HUP
    trap '' XFSZ
}

# Answers the words --help, -h or --version alone, and COMMAND --help or -h, with code 0, and returns for all other words. The text is the one that the
# program prints for wrong words, without its first two lines: bin/operation-places compares them. An empty line ends each part of it.
answer() {
    case $#${2-} in
        1)
            case $1 in
                --version) say_version ;;
                --help | -h) part=p ;;
                *) return ;;
            esac
            ;;
        2--help | 2-h)
            case $1 in *[!a-z]*) return ;; esac
            part="/^ibm1620 $1 /,/^\$/p; /^Options /,\$p"
            ;;
        *) return ;;
    esac
    text=$(sed -n "$part" "$share/usage.txt") || exit 126
    case $#$text in
        1* | 2"ibm1620 $1 "*) say "$text" ;;
    esac
}
