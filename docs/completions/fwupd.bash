# Completion of fwupd's command line for bash. docs/make-pages makes this file.
_fwupd() {
    local word=${COMP_WORDS[COMP_CWORD]} before=${COMP_WORDS[COMP_CWORD - 1]} words=""
    if ((COMP_CWORD == 1)); then
        words="answer inspect replay plan run soak sel build device agent decode status help --help --version"
        mapfile -t COMPREPLY < <(compgen -W "$words" -- "$word")
        return
    fi
    case ${COMP_WORDS[1]}:$before in
        replay:--trace-format) words="hex text pcap" ;;
        run:--trace-format) words="hex text pcap" ;;
        device:--trace-format) words="hex text pcap" ;;
        agent:--trace-format) words="hex text pcap" ;;
        decode:--unit) words="64 128" ;;
        help:*) words="answer inspect replay plan run soak sel build device agent decode status" ;;
        *) case ${COMP_WORDS[1]}:$word in
            answer:-*) words="--uuid --serial --help" ;;
            inspect:-*) words="--digest --json --help" ;;
            replay:-*) words="--trace --trace-format --sel --store --image --json --help" ;;
            plan:-*) words="--package --store --image --json --help" ;;
            run:-*) words="--package --device --check --quiet --trace --trace-format --sel --record --store --image --json --loss --duplicate --delay --seed --help" ;;
            soak:-*) words="--runs --record --image --json --loss --duplicate --delay --seed --help" ;;
            sel:-*) words="--json --help" ;;
            build:-*) words="--json --help" ;;
            device:-*) words="--auto --open --store --image --report --listen --take-over --tty --tick --ticks --trace --trace-format --record --help --listen --tty" ;;
            agent:-*) words="--auto --open --sel --store --report --connect --package --check --json --tty --tick --ticks --trace --trace-format --record --help --connect --tty" ;;
            decode:-*) words="--unit --json --help" ;;
            status:-*) words="--store --image --json --help" ;;
        esac ;;
    esac
    if [[ $words ]]; then
        mapfile -t COMPREPLY < <(compgen -W "$words" -- "$word")
    else
        mapfile -t COMPREPLY < <(compgen -f -- "$word")
    fi
}
complete -o filenames -F _fwupd fwupd
