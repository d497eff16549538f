# Completion of the commands of streetmap(1) for bash.

_streetmap() {
    local cur prev words cword split
    _init_completion -s || return
    local commands="create pipe serve import export load batches apply check lines"

    if ((cword == 2)) && [[ $prev == help ]]; then
        mapfile -t COMPREPLY < <(compgen -W "$commands" -- "$cur")
        return
    fi
    if ((cword == 1)); then
        commands+=" help"
        [[ $cur == -* ]] && commands="--help --version"
        mapfile -t COMPREPLY < <(compgen -W "$commands" -- "$cur")
        return
    fi

    # The values of --port, --key, --collection and others are not known here.
    case $prev in
        --port | --key | --collection | --count | --title | --time | --after) return ;;
        --scale | --shift | --journal-after) return ;;
        --journal | --follower)
            _filedir
            return
            ;;
        --fractions)
            mapfile -t COMPREPLY < <(compgen -W "text" -- "$cur")
            return
            ;;
        --clients)
            mapfile -t COMPREPLY < <(compgen -W "1 64 1024" -- "$cur")
            return
            ;;
        --base)
            mapfile -t COMPREPLY < <(compgen -W "http:// https://" -- "$cur")
            compopt -o nospace
            return
            ;;
        --each)
            mapfile -t COMPREPLY < <(compgen -W "100 1000 10000" -- "$cur")
            return
            ;;
    esac
    $split && return

    if [[ $cur == -* ]]; then
        local options=
        case ${words[1]} in
            pipe) options="--base --conditional --changes --status --fenced --follower" ;;
            serve)
                options="--port --count --clients --log --warm --conditional --changes --status
                    --base --journal --journal-after --journal-sync --fenced --follower"
                ;;
            import) options="--key --collection --replace --progress" ;;
            export) options="--collection --progress" ;;
            load)
                options="--key --collection --each --open --title --time --scale --shift --round
                    --fractions --replace --skip --check --print --progress"
                ;;
            batches) options="--after" ;;
            check) options="--replay" ;;
        esac
        mapfile -t COMPREPLY < <(compgen -W "$options --explain --help" -- "$cur")
        return
    fi

    [[ ${words[1]} == @(lines|help) ]] || _filedir
} &&
    complete -F _streetmap streetmap
