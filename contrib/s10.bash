# Completion of s10 for bash. Written by write_texts.py from the help texts of the program.
_s10() {
    local word=${COMP_WORDS[COMP_CWORD]} before=${COMP_WORDS[COMP_CWORD - 1]} options values files one
    COMPREPLY=()
    if ((COMP_CWORD == 1)); then
        options='check make show replay create serve grant draw void query withdraw notes again report info audit copy loop help'
        [[ $word != -* ]] || options='--help --version'
        mapfile -t COMPREPLY < <(compgen -W "$options" -- "$word")
        return
    fi
    case ${COMP_WORDS[1]} in
        help) ((COMP_CWORD == 2)) && mapfile -t COMPREPLY < <(compgen -W 'check make show replay create serve grant draw void query withdraw notes again report info audit copy loop' -- "$word")
            return ;;
        check) options='--label --help' values='' files='' ;;
        make) options='--help' values='' files='' ;;
        show) options='--help' values='' files='' ;;
        replay) options='--interval --limit --help' values='--interval --limit' files='' ;;
        create) options='--ledger --interval --limit --help' values='--interval --limit' files='--ledger' ;;
        serve) options='--ledger --bind --count --until --day --most-days-ahead --senders --help' values='--bind --count --day --most-days-ahead' files='--ledger --until' ;;
        grant) options='--to --number --notes --holder --service --country --first --last --tries --help' values='--to --number --holder --service --country --first --last --tries' files='--notes' ;;
        draw) options='--to --customer --number --notes --service --country --count --tries --help' values='--to --customer --number --service --country --count --tries' files='--notes' ;;
        void) options='--to --customer --number --notes --id --tries --help' values='--to --customer --number --id --tries' files='--notes' ;;
        query) options='--to --customer --number --notes --id --tries --help' values='--to --customer --number --id --tries' files='--notes' ;;
        withdraw) options='--to --number --notes --range --tries --help' values='--to --number --range --tries' files='--notes' ;;
        notes) options='--file --customer --first --last --help' values='--customer --first --last' files='--file' ;;
        again) options='--to --notes --tries --help' values='--to --tries' files='--notes' ;;
        report) options='--ledger --snapshot --issues --csv --customer --range --id --from-day --to-day --day --help' values='--customer --range --id --from-day --to-day --day' files='--ledger' ;;
        info) options='--ledger --snapshot --day --help' values='--day' files='--ledger' ;;
        audit) options='--ledger --snapshot --help' values='' files='--ledger' ;;
        copy) options='--ledger --to --help' values='' files='--ledger --to' ;;
        loop) options='--day --help' values='--day' files='' ;;
        *) return ;;
    esac
    if [[ " $files " == *" $before "* ]]; then
        compopt -o filenames
        mapfile -t COMPREPLY < <(compgen -f -- "$word")
    elif [[ " $values " != *" $before "* && $word == -* ]]; then
        for one in $options; do
            [[ " ${COMP_WORDS[*]:2:COMP_CWORD-2} " == *" $one "* ]] ||
                mapfile -t -O ${#COMPREPLY[@]} COMPREPLY < <(compgen -W "$one" -- "$word")
        done
    fi
}
complete -F _s10 s10
