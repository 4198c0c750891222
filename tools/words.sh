# What ./hydra and ./try say on standard error beside the program's answer. Both read this file.

# Whether the words are those of a command.
are_words() {
    case "$#:${1-}" in
        2:check | 3:forward | 3:run | 3:link | 3:load | 4:wire) return 0 ;;
    esac
    return 1
}

say_words() {
    cat >&2 <<'END'
hydra: the words are those of one of these lines
    check PROPERTY             reads a property, tests its rules, and says what it needs
    wire PROPERTY FRAME OUT    links a property into a built-in program, and runs one raw frame through it
    forward CASE OUT           runs a P4 program at every switch of a network over captures, without a property
    run CASE OUT               links the property of a case into its P4 program, and runs what is linked over captures
    link CASE OUT              links as run does, and writes the linked programs
    load N OUT                 makes a case from a number of 1 to 20 decimal digits, writes it, and runs it
hydra: OUT is the front of the names of the files that are written; docs/FORMATS.md has the files, docs/ANSWERS.md the answers
END
}

# Whether the words have a case, in which names of files stand.
have_case() {
    are_words "$@" && { [ "$1" = forward ] || [ "$1" = run ] || [ "$1" = link ]; }
}

# A text as a word of the shell.
as_word() {
    case $1 in
        "" | *[!A-Za-z0-9_./-]*) printf "'%s'" "$(printf '%s' "$1" | sed "s/'/'\\\\''/g")" ;;
        *) printf '%s' "$1" ;;
    esac
}

# A file's name from the root on.
from_root() {
    case $1 in
        /*) printf '%s' "$1" ;;
        *) printf '%s/%s' "$(pwd)" "$1" ;;
    esac
}

# The name in the answer `hydra: read NAME`, where the case names it and it stands beside the case.
beside_case() {
    case $1 in
        "hydra: read "*) name=${1#hydra: read } ;;
        *) return 1 ;;
    esac
    [ "$name" != "$2" ] && [ "${name#/}" = "$name" ] && [ -e "$(dirname "$2")/$name" ] && printf '%s' "$name"
}

# Says how `./hydra COMMAND CASE OUT` finds the files beside the case. The first word is ./hydra, from the root on.
say_folder() {
    printf 'hydra: this runs where it stands: (cd %s && %s %s %s %s)\n' "$(as_word "$(dirname "$3")")" "$(as_word "$1")" \
        "$2" "$(as_word "$(basename "$3")")" "$(as_word "$(from_root "$4")")" >&2
}
