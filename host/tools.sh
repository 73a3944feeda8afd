# Shared by the scripts, which source it from the root of the tree: what a script needs, and building what is proved, with progress.
# Messages go to standard error and begin with the script's name, ${0##*/}.

say() { # TEXT
    echo "${0##*/}: $1" >&2
}

need() { # COMMAND...: ends the script where one is not there
    local command
    for command; do
        command -v "$command" >/dev/null || { say "$command is missing: see 'What is needed' in README.md"; exit 1; }
    done
}

need_file() { # FILE COMMAND: ends the script where the file that the command makes is not there
    [ -f "$1" ] || { say "$1 is missing: run '$2' first; see 'Link it' in README.md"; exit 1; }
}

has_rust() { # WHAT: cargo and the Rust that the binding needs are there; where not, says that this is left out
    local version
    version=$(rustc --version 2>/dev/null | sed -n 's/^rustc 1\.\([0-9]*\)\..*/\1/p')
    command -v cargo >/dev/null && [ "${version:-0}" -ge 82 ] || { echo "no cargo with Rust 1.82 here: $1 left out"; return 1; }
}

is_older() { # FILE: than the sources that it is made from; what rt itself puts below crates/ is no source
    [ -n "$(find crates.txt crates \( -name must-fail -o -name out \) -prune -o \( -type f -o -path 'crates/*/*' \) -newer "$1" -print -quit)" ]
}

show_progress() { # reads what rt prints, and says which crate is proved after each that is proved anew
    local line crate=
    while read -r line; do
        case $line in
        'crate '*': modules '*) crate=${line#crate } crate=${crate%%:*} ;;
        'logic=proved '*) say "$crate is proved" ;;
        esac
    done
}

build() { # lib|run CRATE FILE: has rt prove the crate and build it, and puts the library or the program that it makes at FILE
    local began=target/$2.began log=target/$2.log made=crates/$2/out/$2
    [ "$1" = run ] || made=crates/$2/out/lib$2.a
    need rt
    say "proving $2 and what it uses, which takes some minutes the first time"
    mkdir -p target "${3%/*}"
    touch "$began" # an edit that is made meanwhile is newer than this, so that the next run proves again
    # rt run also runs the program, here on an empty input.
    (cd "crates/$2" && rt "$1") 2>&1 </dev/null | tee "$log" | show_progress || { cat "$log" >&2; exit 1; }
    cp "$made" "$3.new"
    touch -r "$began" "$3.new"
    mv -f "$3.new" "$3"
}

prove() { # lib|run CRATE FILE: the same, where the file is missing or older than the sources
    [ ! -e "$3" ] || is_older "$3" || return 0
    build "$@"
}
