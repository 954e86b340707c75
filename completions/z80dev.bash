# shellcheck shell=bash
# Completion of z80dev for bash: commands, options, and files by their kind.
# `scripts/install PREFIX` puts it where bash-completion looks; or read it by `source` in ~/.bashrc.

# Folders, and the files with one of the endings that are given, in upper or lower case.
_z80dev_files() {
    local path ending
    compopt -o filenames 2>/dev/null
    while IFS= read -r path; do
        COMPREPLY+=("$path")
    done < <(compgen -d -- "$word")
    while IFS= read -r path; do
        for ending; do
            [[ "${path,,}" != *".$ending" ]] || COMPREPLY+=("$path")
        done
    done < <(compgen -f -- "$word")
}

# Any file.
_z80dev_any_file() {
    compopt -o filenames 2>/dev/null
    mapfile -t COMPREPLY < <(compgen -f -- "$word")
}

# Folders.
_z80dev_folder() {
    compopt -o filenames 2>/dev/null
    mapfile -t COMPREPLY < <(compgen -d -- "$word")
}

# Folders, and the paths of source files without their endings: what a BASE usually is.
_z80dev_bases() {
    local paths path
    _z80dev_files asm mac z80
    paths=("${COMPREPLY[@]}") COMPREPLY=()
    for path in "${paths[@]}"; do
        COMPREPLY+=("${path%.[AaMmZz][SsAa8][MmCc0]}")
    done
}

# A word as the command would get it: without its quotes and backslashes. `eval` would also run what is in $( ) or ` `.
_z80dev_plain() {
    local text=$1 quote='' each at
    REPLY=''
    for ((at = 0; at < ${#text}; at++)); do
        each=${text:at:1}
        if [[ -n "$quote" && "$each" == "$quote" ]]; then
            quote=''
        elif [[ -z "$quote" && "$each" == [\'\"] ]]; then
            quote=$each
        elif [[ "$each" == \\ && "$quote" != \' ]]; then
            at=$((at + 1))
            REPLY+=${text:at:1}
        else
            REPLY+=$each
        fi
    done
    # shellcheck disable=SC2088 # the tilde that was typed
    [[ "$REPLY" != '~/'* ]] || REPLY=$HOME/${REPLY#'~/'}
}

# Offers a name if the last word is its beginning, in upper or lower case, so quoted that the shell takes it as it is. (`compgen -W`
# would expand the name, and so run a command that is in it.)
_z80dev_offer() {
    local REPLY
    _z80dev_plain "$word"
    [[ "$1" == "${REPLY^^}"* ]] || return
    case $word in
    \'*) [[ "$1" == *\'* ]] || COMPREPLY+=("$1") ;;
    \"*) [[ "$1" == *[\"\$\`\\!]* ]] || COMPREPLY+=("$1") ;;
    *) COMPREPLY+=("$(printf %q "$1")") ;;
    esac
}

# The files on a disk image whose names `get` takes: those of the user that --user names, or of user 0.
_z80dev_names() {
    local LC_ALL=C line REPLY number=0
    local letter='[^][:cntrl:][:space:][:lower:]<>.,;:=?*[]'
    [[ ! "$user" =~ ^[0-9]{1,3}$ ]] || number=$((10#$user))
    local form="^$number ($letter{1,8}\\.$letter{0,3}) [0-9]+( RO)?( SYS)?\$"
    _z80dev_plain "$1"
    # To open a pipe or a device could wait for ever.
    [[ -f "$REPLY" ]] || return 0
    while IFS= read -r line; do
        # A name that begins with a dash would be an option.
        [[ ! "$line" =~ $form || "${BASH_REMATCH[1]}" == -* ]] || _z80dev_offer "${BASH_REMATCH[1]}"
    done < <(z80dev dir "$REPLY" 2>/dev/null </dev/null)
}

_z80dev() {
    local word=${COMP_WORDS[COMP_CWORD]} command='' option='' options='' disk='' user='' several='' each at REPLY operands=()
    COMPREPLY=()
    for ((at = 1; at < COMP_CWORD; at++)); do
        each=${COMP_WORDS[at]}
        if [[ -n "$option" ]]; then
            # bash takes `--out=BASE` apart, at the equals sign.
            if [[ "$each" != = ]]; then
                [[ "$option" != --disk ]] || disk=$each
                [[ "$option" != --user ]] || user=$each
                option=''
            fi
        elif [[ "$each" =~ ^(--(out|define|with|labels|entry|data|disk|steps|last|trace|profile|input|user|symbols|color|terminal|record|replay)|-o)$ || "$command $each" =~ ^(run|debug)\ --list$ ]]; then
            option=$each
        elif [[ "$each" == --to || "$each" == --all ]]; then
            several=$each
        elif [[ "$each" != -* ]]; then
            if [[ -z "$command" ]]; then
                command=$each
            else
                operands+=("$each")
            fi
        fi
    done
    [[ -z "$option" || "$word" != = ]] || word=''

    case $option in
    --out | -o) _z80dev_bases ;;
    --with | --trace | --profile | --input | --record | --replay) _z80dev_any_file ;;
    --labels) _z80dev_files sym ;;
    --list) _z80dev_files lst ;;
    --symbols) mapfile -t COMPREPLY < <(compgen -W 'zsid ucsim' -- "$word") ;;
    --color) mapfile -t COMPREPLY < <(compgen -W 'always never auto' -- "$word") ;;
    --terminal) mapfile -t COMPREPLY < <(compgen -W 'adm3a vt52 none' -- "$word") ;;
    --disk) _z80dev_files img dsk cpm ;;
    esac
    [[ -z "$option" ]] || return

    case $command in
    '') options='asm link build explain check dis dir put get erase rename protect unprotect check-disk blank run debug play -h --help -V --version' ;;
    asm) options='-o --out --grow --no-warn --define --with -h --help' ;;
    link) options='-o --out --map --symbols -h --help' ;;
    build) options='-o --out --grow --list --map --symbols -v --verbose --no-warn --define --with -h --help' ;;
    explain) options='--grow --jumps --json --color --define --with -h --help' ;;
    check | check-disk) options='-h --help' ;;
    dis) options='--labels --entry --data -h --help' ;;
    dir) options='--user --long -h --help' ;;
    put) options='--to --replace --text --user --no-lock -h --help' ;;
    get) options='--all --text --user -h --help' ;;
    erase | rename) options='--user --no-lock -h --help' ;;
    protect | unprotect) options='--system --user --no-lock -h --help' ;;
    blank) options='--mega --keep --no-lock -h --help' ;;
    run) options='--disk --no-lock --steps --labels --regs --last --trace --profile --list -h --help' ;;
    debug) options='--disk --input --replay --labels --list -h --help' ;;
    play) options='--disk --no-lock --steps --raw --terminal --record --replay -h --help' ;;
    esac
    if [[ "$word" == -* || -z "$command" ]]; then
        mapfile -t COMPREPLY < <(compgen -W "$options" -- "$word")
        return
    fi

    case $command$several:${#operands[@]} in
    asm:0 | build:* | explain:*) _z80dev_files asm mac z80 ;;
    link:*) _z80dev_files zmo ;;
    check:0) _z80dev_files siz ;;
    check:1) _z80dev_files crt ;;
    dis:0 | run:0 | debug:0 | play:0) _z80dev_files com ;;
    run:* | debug:* | play:*) [[ -z "$disk" ]] || _z80dev_names "$disk" ;;
    *:0) _z80dev_files img dsk cpm ;;
    put:1 | put--to:* | get:2) _z80dev_any_file ;;
    put:2)
        _z80dev_plain "${operands[1]}"
        each=${REPLY##*/}
        _z80dev_offer "${each^^}"
        ;;
    get--all:1) _z80dev_folder ;;
    dir:1 | get:1 | erase:* | rename:1 | protect:* | unprotect:*) _z80dev_names "${operands[0]}" ;;
    esac
}

complete -F _z80dev z80dev
