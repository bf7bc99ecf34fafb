# Completes the words of paw: commands, the files that each of them takes, games to play, and the options of that.

_paw() {
    local word=${COMP_WORDS[COMP_CWORD]} last=${COMP_WORDS[COMP_CWORD - 1]} ends
    # What README.md tells of commands and their words; packaging/make writes it.
    local names='compile decompile walk trace play resume trial check wrap' takes
    case ${COMP_WORDS[1]} in
    compile) takes='SOURCE IMAGE' ;;
    decompile) takes='IMAGE' ;;
    walk) takes='IMAGE SEED' ;;
    trace) takes='IMAGE SEED' ;;
    play) takes='IMAGE SESSION SEED' ;;
    resume) takes='IMAGE SESSION' ;;
    trial) takes='N' ;;
    check) takes='IMAGE' ;;
    wrap) takes='N TEXT' ;;
    esac
    # So far packaging/make.
    COMPREPLY=()
    case $COMP_CWORD:${COMP_WORDS[1]} in
    [2-9]:serve)
        case $last:$word in
        *:-*)
            COMPREPLY=($(compgen -W '--folder --module --help' -- "$word"))
            return
            ;;
        --module:*) ends='*.wasm' ;;
        --folder:*) ends='*' ;;
        *) ends='*.img' ;;
        esac
        ;;
    *:-*)
        case $last:$word in
        *:-*)
            COMPREPLY=($(compgen -W '--new --session --seed --transcript --width --plain --no-status --source --help --version' -- "$word"))
            return
            ;;
        --session:* | --transcript:*) ends='*' ;;
        --seed:* | --width:*) return ;;
        *) ends='*.img' ;;
        esac
        ;;
    1:*)
        COMPREPLY=($(compgen -W "$names serve" -- "$word"))
        ends='*.img'
        ;;
    *)
        read -ra takes <<<"$takes"
        case ${takes[COMP_CWORD - 2]} in
        SOURCE) ends='*.paws' ;;
        IMAGE) ends='*.img' ;;
        SEED | N | '') return ;;
        *) ends='*' ;;
        esac
        ;;
    esac
    compopt -o filenames
    mapfile -t -O ${#COMPREPLY[@]} COMPREPLY < <(compgen -f -X "!$ends" -- "$word"; compgen -d -- "$word" | grep -vxFf <(compgen -f -X "!$ends" -- "$word"))
}
complete -F _paw paw
